;; CoRR+sc+sc2@2
;; Rfe PosRR Fre : sc sc2@2 sc2@2
(module
  (memory 1 1 shared)
  (func (export "a")
    i32.const 0
    i32.const 16843009
    i32.atomic.store)
  (func (export "b") (result i32)
    i32.const 2
    i32.atomic.load16_u
    i32.const 257
    i32.eq
    i32.const 2
    i32.atomic.load16_u
    i32.const 0
    i32.eq
    i32.and))
