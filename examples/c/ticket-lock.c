// A ticket lock: threads enter in the order in which they drew their tickets. Each thread enters twice, and its result has
// the two counts that it saw as digits. Together the threads see each of 1 to 4 once.
#include <stdatomic.h>

static _Atomic unsigned next_ticket, now_serving;
static int count;

static int enter(void) {
  unsigned ticket = atomic_fetch_add_explicit(&next_ticket, 1, memory_order_relaxed);
  while (atomic_load_explicit(&now_serving, memory_order_acquire) != ticket) {
  }
  int seen = ++count;
  atomic_store_explicit(&now_serving, ticket + 1, memory_order_release);
  return seen;
}

static int enter_twice(void) {
  int seen = enter();
  return seen * 10 + enter();
}

__attribute__((export_name("first"))) int first(void) { return enter_twice(); }
__attribute__((export_name("second"))) int second(void) { return enter_twice(); }
