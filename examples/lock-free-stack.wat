;; A lock-free stack: its head is at 0, the number of nodes made at 4, and nodes of a next node and a value from 64.
(module
  (memory 1 1 shared)
  (func $node (result i32)
    (i32.add (i32.const 64) (i32.shl (i32.atomic.rmw.add (i32.const 4) (i32.const 1)) (i32.const 3))))
  (func $push (param $value i32) (local $new i32) (local $head i32)
    (local.set $new (call $node))
    (i32.store offset=4 (local.get $new) (local.get $value))
    (loop $again
      (local.set $head (i32.atomic.load (i32.const 0)))
      (i32.store (local.get $new) (local.get $head))
      (br_if $again
        (i32.ne (i32.atomic.rmw.cmpxchg (i32.const 0) (local.get $head) (local.get $new)) (local.get $head)))))
  (func $pop (result i32) (local $head i32)
    (loop $again
      (local.set $head (i32.atomic.load (i32.const 0)))
      (if (i32.eqz (local.get $head)) (then (return (i32.const -1))))
      (br_if $again
        (i32.ne (i32.atomic.rmw.cmpxchg (i32.const 0) (local.get $head) (i32.load (local.get $head))) (local.get $head))))
    (i32.load offset=4 (local.get $head)))
  (func (export "push2") (param $value i32)
    (call $push (local.get $value))
    (call $push (i32.add (local.get $value) (i32.const 1))))
  (func (export "pop2") (result i32)
    (i32.add (i32.mul (call $pop) (i32.const 100)) (call $pop))))
