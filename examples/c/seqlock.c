// A sequence lock, as Boehm describes it for C11: the reader tries again if the sequence changed or is odd. Its result is both
// halves, 0, 101 or 202, or -1 after four tries. The writer has no result.
#include <stdatomic.h>

static _Atomic unsigned sequence;
static _Atomic int low, high;

static void write_pair(int value) {
  unsigned before = atomic_load_explicit(&sequence, memory_order_relaxed);
  atomic_store_explicit(&sequence, before + 1, memory_order_relaxed);
  atomic_thread_fence(memory_order_release);
  atomic_store_explicit(&low, value, memory_order_relaxed);
  atomic_store_explicit(&high, value, memory_order_relaxed);
  atomic_store_explicit(&sequence, before + 2, memory_order_release);
}

__attribute__((export_name("writer"))) void writer(void) {
  write_pair(1);
  write_pair(2);
}

__attribute__((export_name("reader"))) int reader(void) {
  for (int tries = 4; tries > 0; tries--) {
    unsigned before = atomic_load_explicit(&sequence, memory_order_acquire);
    int pair = atomic_load_explicit(&low, memory_order_relaxed);
    pair += 100 * atomic_load_explicit(&high, memory_order_relaxed);
    atomic_thread_fence(memory_order_acquire);
    unsigned after = atomic_load_explicit(&sequence, memory_order_relaxed);
    if (before == after && before % 2 == 0) return pair;
  }
  return -1;
}
