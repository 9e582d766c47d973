// A counter in parts: each thread adds to a part of its own, and a reader sums the parts. The adders' results are what they
// added, 3 each; the reader's two sums, as digits, do not decrease and are at most 6.
#include <stdatomic.h>

static struct {
  _Alignas(64) _Atomic int count;
} parts[2];

static int add(int me) {
  for (int k = 0; k < 3; k++) {
    int own = atomic_load_explicit(&parts[me].count, memory_order_relaxed);
    atomic_store_explicit(&parts[me].count, own + 1, memory_order_release);
  }
  return parts[me].count;
}

static int sum(void) { return parts[0].count + parts[1].count; }

__attribute__((export_name("adder"))) int adder(void) { return add(0); }
__attribute__((export_name("other_adder"))) int other_adder(void) { return add(1); }

__attribute__((export_name("reader"))) int reader(void) {
  int before = sum();
  return before * 10 + sum();
}
