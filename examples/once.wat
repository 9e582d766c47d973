;; A table of two numbers, 7 and 8 at 16 and 20, that is made once. The flag at 0 is set when it is made, and the lock at 4 when a
;; thread begins to make it. The result is the sum of the table, or -1 if another thread is making it.
(module
  (memory 1 1 shared)
  (func $use (export "first") (export "second") (result i32)
    (block $made
      (br_if $made (i32.atomic.load (i32.const 0)))
      (if (i32.atomic.rmw.cmpxchg (i32.const 4) (i32.const 0) (i32.const 1)) (then (return (i32.const -1))))
      (i32.store (i32.const 16) (i32.const 7))
      (i32.store (i32.const 20) (i32.const 8))
      (i32.atomic.store (i32.const 0) (i32.const 1)))
    (i32.add (i32.load (i32.const 16)) (i32.load (i32.const 20)))))
