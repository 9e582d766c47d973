;; WRC
;; Write to read causality: a store is seen, and then another made, which a third thread sees.
(module
  (memory 1 1 shared)
  (func (export "a")
    (i32.store (i32.const 0) (i32.const 1)))
  (func (export "b") (result i32)
    (i32.load (i32.const 0))
    (i32.store (i32.const 4) (i32.const 1)))
  (func (export "c") (result i32)
    (i32.add (i32.mul (i32.load (i32.const 4)) (i32.const 10)) (i32.load (i32.const 0)))))
