;; 3.SB+sc
;; PodWR Fre PodWR Fre PodWR Fre : sc sc sc sc sc sc
(module
  (memory 1 1 shared)
  (func (export "a") (result i32)
    i32.const 0
    i32.const 1
    i32.atomic.store
    i32.const 16
    i32.atomic.load)
  (func (export "b") (result i32)
    i32.const 16
    i32.const 1
    i32.atomic.store
    i32.const 32
    i32.atomic.load)
  (func (export "c") (result i32)
    i32.const 32
    i32.const 1
    i32.atomic.store
    i32.const 0
    i32.atomic.load))
