;; IRIW
;; Independent reads of independent writes: two threads store to a place each, two load both, in opposite order.
(module
  (memory 1 1 shared)
  (func (export "a")
    (i32.store (i32.const 0) (i32.const 1)))
  (func (export "b")
    (i32.store (i32.const 4) (i32.const 1)))
  (func (export "c") (result i32)
    (i32.add (i32.mul (i32.load (i32.const 0)) (i32.const 10)) (i32.load (i32.const 4))))
  (func (export "d") (result i32)
    (i32.add (i32.mul (i32.load (i32.const 4)) (i32.const 10)) (i32.load (i32.const 0)))))
