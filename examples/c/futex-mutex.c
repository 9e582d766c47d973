// Drepper's mutex: 0 is free, 1 is held, 2 is held by one while another may wait. Two threads add 1 to a plain counter three times
// each. A result is what the thread saw last: one of them is 6, and both are at least 3.
#include <stdatomic.h>

static _Atomic int state;
static int counter;

static void lock(void) {
  int seen = 0;
  if (atomic_compare_exchange_strong(&state, &seen, 1)) return;
  if (seen != 2) seen = atomic_exchange(&state, 2);
  while (seen != 0) {
    __builtin_wasm_memory_atomic_wait32((int *)&state, 2, -1);
    seen = atomic_exchange(&state, 2);
  }
}

static void unlock(void) {
  if (atomic_exchange(&state, 0) == 2) __builtin_wasm_memory_atomic_notify((int *)&state, 1);
}

static int add_three(void) {
  int last = 0;
  for (int i = 0; i < 3; i++) {
    lock();
    last = ++counter;
    unlock();
  }
  return last;
}

__attribute__((export_name("first"))) int first(void) { return add_three(); }
__attribute__((export_name("second"))) int second(void) { return add_three(); }
