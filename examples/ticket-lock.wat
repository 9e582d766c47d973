;; A ticket lock, whose next ticket is at 0 and whose served one at 4, around a counter of 8 bytes at 64.
(module
  (memory 1 1 shared)
  (func (export "work") (param $rounds i32) (result i32) (local $ticket i32)
    (loop $next
      (local.set $ticket (i32.atomic.rmw.add (i32.const 0) (i32.const 1)))
      (block $in (loop $wait
        (br_if $in (i32.eq (i32.atomic.load (i32.const 4)) (local.get $ticket)))
        (br $wait)))
      (i64.store (i32.const 64) (i64.add (i64.load (i32.const 64)) (i64.const 0x100000001)))
      (drop (i32.atomic.rmw.add (i32.const 4) (i32.const 1)))
      (br_if $next (local.tee $rounds (i32.sub (local.get $rounds) (i32.const 1)))))
    (local.get $ticket)))
