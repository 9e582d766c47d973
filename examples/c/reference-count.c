// A counted reference: the thread that drops the last one sees what all others wrote, by a fence, and frees the object. The
// result is 0 for all threads but one, whose result is the sum of what they wrote: 7.
#include <stdatomic.h>

static struct {
  _Atomic int count;
  int parts[3];
} object = {3, {0}};

static int use_and_drop(int me) {
  object.parts[me] = 1 << me;
  if (atomic_fetch_sub_explicit(&object.count, 1, memory_order_release) != 1) return 0;
  atomic_thread_fence(memory_order_acquire);
  int sum = object.parts[0] + object.parts[1] + object.parts[2];
  for (int k = 0; k < 3; k++) object.parts[k] = -1;
  return sum;
}

__attribute__((export_name("first"))) int first(void) { return use_and_drop(0); }
__attribute__((export_name("second"))) int second(void) { return use_and_drop(1); }
__attribute__((export_name("third"))) int third(void) { return use_and_drop(2); }
