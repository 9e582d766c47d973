;; LB+sc
;; PodRW Rfe PodRW Rfe : sc sc sc sc
(module
  (memory 1 1 shared)
  (func (export "a") (result i32)
    i32.const 0
    i32.atomic.load
    i32.const 16
    i32.const 1
    i32.atomic.store)
  (func (export "b") (result i32)
    i32.const 16
    i32.atomic.load
    i32.const 0
    i32.const 1
    i32.atomic.store))
