;; A ring of one slot, at 16, with one producer and one consumer. The head at 0 counts what was taken, the tail at 4 what was put.
;; The producer puts 1 and 2; its result has a digit for each, 1 if there was room. The consumer takes twice; its result has what
;; it took as digits, 0 for nothing.
(module
  (memory 1 1 shared)
  (func $put (param $number i32) (result i32) (local $tail i32)
    (local.set $tail (i32.load (i32.const 4)))
    (if (i32.ne (i32.atomic.load (i32.const 0)) (local.get $tail)) (then (return (i32.const 0))))
    (i32.store (i32.const 16) (local.get $number))
    (i32.atomic.store (i32.const 4) (i32.add (local.get $tail) (i32.const 1)))
    (i32.const 1))
  (func $take (result i32) (local $head i32) (local $number i32)
    (local.set $head (i32.load (i32.const 0)))
    (if (i32.eq (i32.atomic.load (i32.const 4)) (local.get $head)) (then (return (i32.const 0))))
    (local.set $number (i32.load (i32.const 16)))
    (i32.atomic.store (i32.const 0) (i32.add (local.get $head) (i32.const 1)))
    (local.get $number))
  (func (export "producer") (result i32)
    (i32.add (i32.mul (call $put (i32.const 1)) (i32.const 10)) (call $put (i32.const 2))))
  (func (export "consumer") (result i32)
    (i32.add (i32.mul (call $take) (i32.const 10)) (call $take))))
