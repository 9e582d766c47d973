;; LB
;; Load buffering: each thread loads, and then stores what the other loads.
(module
  (memory 1 1 shared)
  (func (export "a") (result i32)
    (i32.load (i32.const 0))
    (i32.store (i32.const 4) (i32.const 1)))
  (func (export "b") (result i32)
    (i32.load (i32.const 4))
    (i32.store (i32.const 0) (i32.const 1))))
