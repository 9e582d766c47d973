;; The initial memory has the bytes 9 and 8 at the addresses 4 and 5.
(module
  (memory 1 1 shared)
  (func (export "a") (result i32)
    (i32.load (i32.const 4)))
  (data (i32.const 4) "\09\08"))
