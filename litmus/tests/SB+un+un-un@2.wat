;; SB+un+un-un@2
;; PodWR Fre PodWR Fre : un un un un@2
(module
  (memory 1 1 shared)
  (func (export "a") (result i32)
    i32.const 0
    i32.const 16843009
    i32.store
    i32.const 16
    i32.load
    i32.const 0
    i32.eq)
  (func (export "b") (result i32)
    i32.const 16
    i32.const 1
    i32.store
    i32.const 2
    i32.load align=1
    i32.const 0
    i32.eq))
