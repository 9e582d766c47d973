;; CoRW1
;; PosRW Rfi
(module
  (memory 1 1 shared)
  (func (export "a") (result i32)
    i32.const 0
    i32.load
    i32.const 0
    i32.const 1
    i32.store))
