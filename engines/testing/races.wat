;; What engines that are wrong on purpose run: loops that are long enough for two threads to meet.
;; races.wasm is made of it by `wat2wasm --enable-threads races.wat -o races.wasm`.
(module
  (memory 1 1 shared)
  ;; Stores a word of two equal halves at one place, and loads one, COUNT times. A half of another word is a torn store.
  (func (export "words") (param $word i32) (param $count i32) (result i32) (local $seen i32)
    (loop $again
      (i32.store (i32.const 0) (local.get $word))
      (local.set $seen (i32.load (i32.const 0)))
      (br_if $again (local.tee $count (i32.sub (local.get $count) (i32.const 1)))))
    (local.get $seen))
  ;; As `words`, with another word each time: each of its bytes is BYTE at first, and 2 more than before. So with BYTE 1 and 2 two
  ;; threads write no byte twice, and the writers of a torn value are known: that it has no witness is seen at once.
  (func (export "halves") (param $byte i32) (param $count i32) (result i32) (local $seen i32)
    (loop $again
      (i32.store (i32.const 0) (i32.mul (local.get $byte) (i32.const 0x01010101)))
      (local.set $seen (i32.load (i32.const 0)))
      (local.set $byte (i32.add (local.get $byte) (i32.const 2)))
      (br_if $again (local.tee $count (i32.sub (local.get $count) (i32.const 1)))))
    (local.get $seen))
  ;; Stores 1, 2 and so on to COUNT at a place of the thread's own, and loads each. Any other value is a stale load.
  (func (export "numbers") (param $address i32) (param $count i32) (result i32) (local $number i32)
    (loop $again
      (i32.store (local.get $address) (local.tee $number (i32.add (local.get $number) (i32.const 1))))
      (br_if $again (i32.lt_u (i32.load (local.get $address)) (local.get $count))))
    (local.get $number))
  ;; COUNT times store buffering with atomic accesses: pair I is at 128 I. The second thread starts with SIDE 64. The result is how
  ;; often 0 was loaded.
  (func (export "pairs") (param $side i32) (param $count i32) (result i32) (local $at i32) (local $zeros i32)
    (loop $again
      (i32.atomic.store (i32.xor (local.get $at) (local.get $side)) (i32.const 1))
      (local.set $zeros (i32.add (local.get $zeros)
        (i32.eqz (i32.atomic.load (i32.xor (local.get $at) (i32.xor (local.get $side) (i32.const 64)))))))
      (local.set $at (i32.add (local.get $at) (i32.const 128)))
      (br_if $again (local.tee $count (i32.sub (local.get $count) (i32.const 1)))))
    (local.get $zeros)))
