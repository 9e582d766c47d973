// A lock for one writer or many readers. The state is the number of readers, or -1 for a writer. A reader's result is both
// halves of the pair, 0 or 505: never one new and one old half. The writer has no result.
#include <stdatomic.h>

static _Atomic int state;
static int low, high;

static void replace(int from_least, int change) {
  for (;;) {
    int seen = atomic_load_explicit(&state, memory_order_relaxed);
    if (seen < from_least || (change < 0 && seen != 0)) continue;
    if (atomic_compare_exchange_weak_explicit(&state, &seen, seen + change, memory_order_acquire, memory_order_relaxed)) return;
  }
}

__attribute__((export_name("writer"))) void writer(void) {
  replace(0, -1);
  low = 5;
  high = 5;
  atomic_store_explicit(&state, 0, memory_order_release);
}

static int read_pair(void) {
  replace(0, 1);
  int pair = high * 100 + low;
  atomic_fetch_sub_explicit(&state, 1, memory_order_release);
  return pair;
}

__attribute__((export_name("reader"))) int reader(void) { return read_pair(); }
__attribute__((export_name("other_reader"))) int other_reader(void) { return read_pair(); }
