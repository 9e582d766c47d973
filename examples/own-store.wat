;; Each thread stores 7 at the address of its argument, and loads it again: it sees its own store while that waits.
(module
  (memory 1 1 shared)
  (func (export "f") (param i32) (result i32)
    (i32.store (local.get 0) (i32.const 7))
    (i32.load (local.get 0))))
