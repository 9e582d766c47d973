;; A thread hands a value to another one, which waits for it at most four turns.
;; ~exists (b=0)
(module (memory 1 1 shared)
  (func (export "a")
    (i32.store (i32.const 0) (i32.const 7))
    (i32.atomic.store (i32.const 16) (i32.const 1)))
  (func (export "b") (result i32)
    (local $turns i32)
    (loop $again
      (if (i32.atomic.load (i32.const 16))
        (then (return (i32.load (i32.const 0)))))
      (local.set $turns (i32.add (local.get $turns) (i32.const 1)))
      (br_if $again (i32.lt_u (local.get $turns) (i32.const 4))))
    (i32.const 9)))
