;; A constant of a type that is left out.
(module
  (memory 1 1 shared)
  (func (drop (f32.const 0))))
