;; A trap of each kind.
(module
  (memory 1 1 shared)
  (func (export "unreachable") unreachable)
  (func (export "divide") (drop (i32.div_s (i32.const 1) (i32.const 0))))
  (func (export "overflow") (drop (i32.div_s (i32.const -2147483648) (i32.const -1))))
  (func (export "past") (drop (i32.load (i32.const 65535))))
  (func (export "odd") (drop (i32.atomic.load (i32.const 2))))
  (func $deep (export "deep") (call $deep)))
