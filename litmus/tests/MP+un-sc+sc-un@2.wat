;; MP+un-sc+sc-un@2
;; PodWW Rfe PodRR Fre : un sc sc un@2
(module
  (memory 1 1 shared)
  (func (export "a")
    i32.const 0
    i32.const 16843009
    i32.store
    i32.const 16
    i32.const 1
    i32.atomic.store)
  (func (export "b") (result i32)
    i32.const 16
    i32.atomic.load
    i32.const 1
    i32.eq
    i32.const 2
    i32.load align=1
    i32.const 0
    i32.eq
    i32.and))
