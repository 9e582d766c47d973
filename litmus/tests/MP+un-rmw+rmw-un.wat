;; MP+un-rmw+rmw-un
;; PodWW Rfe PodRR Fre : un rmw rmw un
(module
  (memory 1 1 shared)
  (func (export "a")
    i32.const 0
    i32.const 1
    i32.store
    i32.const 16
    i32.const 1
    i32.atomic.rmw.xchg
    drop)
  (func (export "b") (result i32)
    i32.const 16
    i32.const 2
    i32.atomic.rmw.xchg
    i32.const 10
    i32.mul
    i32.const 0
    i32.load
    i32.add))
