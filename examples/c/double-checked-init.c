// Double-checked initialization: the first thread that has the lock makes the table; later ones see the flag without the lock.
// Each result is 15, the sum of the whole table.
#include <stdatomic.h>

static _Atomic int is_locked, is_made;
static int table[3];

static void make(void) {
  for (int k = 0; k < 3; k++) table[k] = 4 + k;
}

static int use(void) {
  if (!atomic_load_explicit(&is_made, memory_order_acquire)) {
    while (atomic_exchange_explicit(&is_locked, 1, memory_order_acquire)) {
    }
    if (!atomic_load_explicit(&is_made, memory_order_relaxed)) {
      make();
      atomic_store_explicit(&is_made, 1, memory_order_release);
    }
    atomic_store_explicit(&is_locked, 0, memory_order_release);
  }
  return table[0] + table[1] + table[2];
}

__attribute__((export_name("first"))) int first(void) { return use(); }
__attribute__((export_name("second"))) int second(void) { return use(); }
