;; A sequence lock: the sequence is at 0, and a pair of numbers at 16 and 32. While the pair is written, the sequence is odd. The
;; reader's result has both numbers as digits, 0 or 11, or is -1 if the sequence was odd or has changed.
;; Its first load of the sequence is plain, so it may take half of a new pair for an old one: its result may also be 1 or 10.
(module
  (memory 1 1 shared)
  (func (export "writer")
    (i32.atomic.store (i32.const 0) (i32.const 1))
    (i32.atomic.store (i32.const 16) (i32.const 1))
    (i32.atomic.store (i32.const 32) (i32.const 1))
    (i32.atomic.store (i32.const 0) (i32.const 2)))
  (func (export "reader") (result i32) (local $sequence i32) (local $pair i32)
    (local.set $sequence (i32.load (i32.const 0)))
    (if (i32.and (local.get $sequence) (i32.const 1)) (then (return (i32.const -1))))
    (local.set $pair (i32.mul (i32.atomic.load (i32.const 16)) (i32.const 10)))
    (local.set $pair (i32.add (local.get $pair) (i32.atomic.load (i32.const 32))))
    (if (i32.ne (i32.atomic.load (i32.const 0)) (local.get $sequence)) (then (return (i32.const -1))))
    (local.get $pair)))
