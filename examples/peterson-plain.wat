;; Peterson's lock of two threads with plain accesses: their flags are at 0 and 4, the turn at 8, a counter at 64.
(module
  (memory 1 1 shared)
  (func (export "work") (param $me i32) (result i32) (local $other i32) (local $count i32)
    (local.set $other (i32.sub (i32.const 1) (local.get $me)))
    (i32.store (i32.shl (local.get $me) (i32.const 2)) (i32.const 1))
    (i32.store offset=8 (i32.const 0) (local.get $other))
    (block $in (loop $wait
      (br_if $in (i32.eqz (i32.load (i32.shl (local.get $other) (i32.const 2)))))
      (br_if $in (i32.eq (i32.load offset=8 (i32.const 0)) (local.get $me)))
      (br $wait)))
    (local.set $count (i32.load offset=64 (i32.const 0)))
    (i32.store offset=64 (i32.const 0) (i32.add (local.get $count) (i32.const 1)))
    (i32.store (i32.shl (local.get $me) (i32.const 2)) (i32.const 0))
    (local.get $count)))
