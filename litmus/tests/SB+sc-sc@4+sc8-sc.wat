;; SB+sc-sc@4+sc8-sc
;; PodWR Fre PodWR Fre : sc sc@4 sc8 sc
(module
  (memory 1 1 shared)
  (func (export "a") (result i32)
    i32.const 0
    i32.const 1
    i32.atomic.store
    i32.const 20
    i32.atomic.load
    i32.const 0
    i32.eq)
  (func (export "b") (result i32)
    i32.const 16
    i64.const 72340172838076673
    i64.atomic.store
    i32.const 0
    i32.atomic.load
    i32.const 0
    i32.eq))
