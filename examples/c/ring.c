// A ring buffer of bytes with one producer and one consumer.
#include <stdatomic.h>
#include <stdint.h>

static struct {
  _Atomic uint32_t head, tail;
  int8_t slots[4];
} ring = {0, 0, {1, 2, 3, 4}};

static int take(int8_t *out) {
  uint32_t tail = atomic_load_explicit(&ring.tail, memory_order_relaxed);
  if (tail == atomic_load_explicit(&ring.head, memory_order_acquire)) return 0;
  *out = ring.slots[tail & 3];
  atomic_store_explicit(&ring.tail, tail + 1, memory_order_release);
  return 1;
}

__attribute__((export_name("produce"))) void produce(int count) {
  for (int i = 0; i < count; i++) {
    uint32_t head = atomic_load_explicit(&ring.head, memory_order_relaxed);
    if (head - atomic_load_explicit(&ring.tail, memory_order_acquire) == 4) break;
    ring.slots[head & 3] = (int8_t)(-1 - i);
    atomic_store_explicit(&ring.head, head + 1, memory_order_release);
  }
}

__attribute__((export_name("consume"))) int consume(int count) {
  int sum = 0;
  for (int i = 0; i < count; i++) {
    int8_t value = 0;
    sum = take(&value) ? sum * 10 + value : sum * 10;
  }
  return sum;
}
