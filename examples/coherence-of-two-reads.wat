;; CoRR
;; Coherence of two reads: one thread stores, the other loads twice, and gives both values as digits.
(module
  (memory 1 1 shared)
  (func (export "a")
    (i32.store (i32.const 0) (i32.const 1)))
  (func (export "b") (result i32)
    (i32.add (i32.mul (i32.load (i32.const 0)) (i32.const 10)) (i32.load (i32.const 0)))))
