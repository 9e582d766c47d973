// Peterson's lock for two threads, of relaxed accesses and a fence. Each thread's result is the count that it saw: 1 and 2.
#include <stdatomic.h>

static _Atomic int interested[2], turn;
static int count;

static int enter(int me) {
  int other = 1 - me;
  atomic_store_explicit(&interested[me], 1, memory_order_relaxed);
  atomic_store_explicit(&turn, other, memory_order_relaxed);
  atomic_thread_fence(memory_order_seq_cst);
  while (atomic_load_explicit(&interested[other], memory_order_acquire) &&
         atomic_load_explicit(&turn, memory_order_relaxed) == other) {
  }
  int seen = ++count;
  atomic_store_explicit(&interested[me], 0, memory_order_release);
  return seen;
}

__attribute__((export_name("first"))) int first(void) { return enter(0); }
__attribute__((export_name("second"))) int second(void) { return enter(1); }
