;; A store of 4 bytes says that its address is a multiple of 8. It isn't valid: wat2wasm needs --no-check.
(module
  (memory 1 1 shared)
  (func (export "a") (result i32)
    (i32.store align=8 (i32.const 0) (i32.const 1))
    (i32.load (i32.const 4)))
  (func (export "b") (result i32)
    (i32.store (i32.const 4) (i32.const 1))
    (i32.load (i32.const 0))))
