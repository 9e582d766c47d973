;; A store of 8 bytes, and a load of 4 bytes out of its middle.
(module
  (memory 1 1 shared)
  (func (export "a") (result i32)
    (i64.store (i32.const 0) (i64.const 0x0807060504030201))
    (i32.load (i32.const 2))))
