;; ISA2
;; PodWW Rfe PodRW Rfe PodRR Fre
(module
  (memory 1 1 shared)
  (func (export "a")
    i32.const 0
    i32.const 1
    i32.store
    i32.const 16
    i32.const 1
    i32.store)
  (func (export "b") (result i32)
    i32.const 16
    i32.load
    i32.const 32
    i32.const 1
    i32.store)
  (func (export "c") (result i32)
    i32.const 32
    i32.load
    i32.const 10
    i32.mul
    i32.const 0
    i32.load
    i32.add))
