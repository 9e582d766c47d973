;; IRIW+sc
;; Rfe PodRR Fre Rfe PodRR Fre : sc sc sc sc sc sc
(module
  (memory 1 1 shared)
  (func (export "a")
    i32.const 0
    i32.const 1
    i32.atomic.store)
  (func (export "b") (result i32)
    i32.const 0
    i32.atomic.load
    i32.const 10
    i32.mul
    i32.const 16
    i32.atomic.load
    i32.add)
  (func (export "c")
    i32.const 16
    i32.const 1
    i32.atomic.store)
  (func (export "d") (result i32)
    i32.const 16
    i32.atomic.load
    i32.const 10
    i32.mul
    i32.const 0
    i32.atomic.load
    i32.add))
