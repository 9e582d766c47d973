;; MP+un8
;; PodWW Rfe PodRR Fre : un8 un8 un8 un8
(module
  (memory 1 1 shared)
  (func (export "a")
    i32.const 0
    i64.const 1
    i64.store
    i32.const 16
    i64.const 1
    i64.store)
  (func (export "b") (result i32)
    i32.const 16
    i64.load
    i32.wrap_i64
    i32.const 10
    i32.mul
    i32.const 0
    i64.load
    i32.wrap_i64
    i32.add))
