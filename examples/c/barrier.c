// A barrier that turns its sense: no thread begins a phase before all have ended the one before. Each thread stores a number in
// each of two phases and then reads the other's. The results have what they read as digits: 34 and 12.
#include <stdatomic.h>

#define THREADS 2

static _Atomic int waiting = THREADS, sense;
static int numbers[2][THREADS];

static void meet(int *mine) {
  *mine = !*mine;
  if (atomic_fetch_sub_explicit(&waiting, 1, memory_order_acq_rel) == 1) {
    atomic_store_explicit(&waiting, THREADS, memory_order_relaxed);
    atomic_store_explicit(&sense, *mine, memory_order_release);
  } else {
    while (atomic_load_explicit(&sense, memory_order_acquire) != *mine) {
    }
  }
}

static int phases(int me) {
  int mine = 0, seen = 0;
  for (int phase = 0; phase < 2; phase++) {
    numbers[phase][me] = me * 2 + phase + 1;
    meet(&mine);
    seen = seen * 10 + numbers[phase][1 - me];
  }
  return seen;
}

__attribute__((export_name("first"))) int first(void) { return phases(0); }
__attribute__((export_name("second"))) int second(void) { return phases(1); }
