;; SB+sc, many rounds of it
;; 16 times store buffering in a row with atomic accesses, each time in two cache lines of its own. Bit i of a result is what
;; was loaded at time i, so that time i was weak where it is 0 in both results.
(module
  (memory 1 1 shared)
  (func (export "a") (result i32) (local $i i32) (local $seen i32)
    (loop $next
      (i32.atomic.store (i32.shl (local.get $i) (i32.const 7)) (i32.const 1))
      (local.set $seen (i32.or (local.get $seen)
        (i32.shl (i32.atomic.load offset=64 (i32.shl (local.get $i) (i32.const 7))) (local.get $i))))
      (br_if $next (i32.lt_u (local.tee $i (i32.add (local.get $i) (i32.const 1))) (i32.const 16))))
    (local.get $seen))
  (func (export "b") (result i32) (local $i i32) (local $seen i32)
    (loop $next
      (i32.atomic.store offset=64 (i32.shl (local.get $i) (i32.const 7)) (i32.const 1))
      (local.set $seen (i32.or (local.get $seen)
        (i32.shl (i32.atomic.load (i32.shl (local.get $i) (i32.const 7))) (local.get $i))))
      (br_if $next (i32.lt_u (local.tee $i (i32.add (local.get $i) (i32.const 1))) (i32.const 16))))
    (local.get $seen)))
