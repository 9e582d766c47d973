// Read-copy-update: readers take no lock; the writer publishes a copy and waits for a grace period, in which each reader has
// been outside, before it reuses the old one. A reader's result is 11 or 22, and never a mixed or a reused pair.
#include <stdatomic.h>

struct pair {
  int low, high;
};

static struct pair pairs[2] = {{1, 1}, {0, 0}};
static _Atomic(struct pair *) current = &pairs[0];
static _Atomic int is_inside[2];

static int read_pair(int me) {
  atomic_store_explicit(&is_inside[me], 1, memory_order_relaxed);
  atomic_thread_fence(memory_order_seq_cst);
  struct pair *seen = atomic_load_explicit(&current, memory_order_consume);
  int digits = seen->high * 10 + seen->low;
  atomic_store_explicit(&is_inside[me], 0, memory_order_release);
  return digits;
}

__attribute__((export_name("reader"))) int reader(void) { return read_pair(0); }
__attribute__((export_name("other_reader"))) int other_reader(void) { return read_pair(1); }

__attribute__((export_name("writer"))) void writer(void) {
  pairs[1].low = 2;
  pairs[1].high = 2;
  atomic_store_explicit(&current, &pairs[1], memory_order_release);
  atomic_thread_fence(memory_order_seq_cst);
  for (int k = 0; k < 2; k++) {
    while (atomic_load_explicit(&is_inside[k], memory_order_acquire)) {
    }
  }
  pairs[0].low = 9;
}
