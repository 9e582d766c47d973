;; f(x) is x: a local that is live over memory.atomic.wait32 keeps its value.
(module
  (memory 1 1 shared)
  (func (export "f") (param $value i32) (result i32)
    (local $kept i32)
    (loop $once
      (local.set $kept (local.get $value)))
    (drop (memory.atomic.wait32 (i32.const 0) (i32.atomic.load (i32.const 0)) (i64.const 1000)))
    (local.get $kept)))
