;; 3.LB
;; PodRW Rfe PodRW Rfe PodRW Rfe
(module
  (memory 1 1 shared)
  (func (export "a") (result i32)
    i32.const 0
    i32.load
    i32.const 16
    i32.const 1
    i32.store)
  (func (export "b") (result i32)
    i32.const 16
    i32.load
    i32.const 32
    i32.const 1
    i32.store)
  (func (export "c") (result i32)
    i32.const 32
    i32.load
    i32.const 0
    i32.const 1
    i32.store))
