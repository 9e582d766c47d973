// The deque of chase-lev-deque.c with a bug: the thief loads `bottom` plainly. So it may see an older one, and take a number that
// the owner takes too. Results have the numbers as digits, 0 for none.
#include <stdatomic.h>

static _Atomic int top, bottom, cells[4];

static void push(int number) {
  int at = atomic_load_explicit(&bottom, memory_order_relaxed);
  atomic_store_explicit(&cells[at & 3], number, memory_order_relaxed);
  atomic_thread_fence(memory_order_release);
  atomic_store_explicit(&bottom, at + 1, memory_order_relaxed);
}

static int take(void) {
  int at = atomic_load_explicit(&bottom, memory_order_relaxed) - 1;
  atomic_store_explicit(&bottom, at, memory_order_relaxed);
  atomic_thread_fence(memory_order_seq_cst);
  int first = atomic_load_explicit(&top, memory_order_relaxed);
  int number = 0;
  if (first <= at) {
    number = atomic_load_explicit(&cells[at & 3], memory_order_relaxed);
    if (first < at) return number;
    if (!atomic_compare_exchange_strong_explicit(&top, &first, first + 1, memory_order_seq_cst, memory_order_relaxed)) number = 0;
  }
  atomic_store_explicit(&bottom, at + 1, memory_order_relaxed);
  return number;
}

static int steal(void) {
  int first = atomic_load_explicit(&top, memory_order_acquire);
  atomic_thread_fence(memory_order_seq_cst);
  if (first >= *(volatile int *)&bottom) return 0;
  int number = atomic_load_explicit(&cells[first & 3], memory_order_relaxed);
  int is_mine = atomic_compare_exchange_strong_explicit(&top, &first, first + 1, memory_order_seq_cst, memory_order_relaxed);
  return is_mine ? number : 0;
}

__attribute__((export_name("owner"))) int owner(void) {
  for (int number = 1; number <= 3; number++) push(number);
  int taken = take();
  return taken * 10 + take();
}

__attribute__((export_name("thief"))) int thief(void) {
  int stolen = steal();
  return stolen * 10 + steal();
}
