;; MP+sc
;; One thread writes data and then a atomic flag; the other loads the flag and then the data.
(module
  (memory 1 1 shared)
  (func (export "a")
    (i32.store (i32.const 0) (i32.const 1))
    (i32.atomic.store (i32.const 4) (i32.const 1)))
  (func (export "b") (result i32)
    (drop (i32.atomic.load (i32.const 4)))
    (i32.load (i32.const 0))))
