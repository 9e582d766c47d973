;; LB+rmw
;; PodRW Rfe PodRW Rfe : rmw rmw rmw rmw
(module
  (memory 1 1 shared)
  (func (export "a") (result i32)
    i32.const 0
    i32.const 2
    i32.atomic.rmw.xchg
    i32.const 16
    i32.const 1
    i32.atomic.rmw.xchg
    drop)
  (func (export "b") (result i32)
    i32.const 16
    i32.const 2
    i32.atomic.rmw.xchg
    i32.const 0
    i32.const 1
    i32.atomic.rmw.xchg
    drop))
