;; 2+2W
;; Two plus two writes: each thread stores to both places, in opposite order; a third loads both.
(module
  (memory 1 1 shared)
  (func (export "a")
    (i32.store (i32.const 0) (i32.const 1))
    (i32.store (i32.const 4) (i32.const 2)))
  (func (export "b")
    (i32.store (i32.const 4) (i32.const 1))
    (i32.store (i32.const 0) (i32.const 2)))
  (func (export "c") (result i32)
    (i32.add (i32.mul (i32.load (i32.const 0)) (i32.const 10)) (i32.load (i32.const 4)))))
