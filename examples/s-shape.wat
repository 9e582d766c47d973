;; S
;; The S shape: a thread stores to two places, another loads the second and stores to the first; a third loads the first.
(module
  (memory 1 1 shared)
  (func (export "a")
    (i32.store (i32.const 0) (i32.const 2))
    (i32.store (i32.const 4) (i32.const 1)))
  (func (export "b") (result i32)
    (i32.load (i32.const 4))
    (i32.store (i32.const 0) (i32.const 1)))
  (func (export "c") (result i32)
    (i32.load (i32.const 0))))
