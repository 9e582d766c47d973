;; SB+un8
;; PodWR Fre PodWR Fre : un8 un8 un8 un8
(module
  (memory 1 1 shared)
  (func (export "a") (result i32)
    i32.const 0
    i64.const 1
    i64.store
    i32.const 16
    i64.load
    i32.wrap_i64)
  (func (export "b") (result i32)
    i32.const 16
    i64.const 1
    i64.store
    i32.const 0
    i64.load
    i32.wrap_i64))
