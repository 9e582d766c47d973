// Vyukov's bounded queue of many producers and many consumers: the sequence of a cell tells whose turn it is. Two threads put
// a number in and take one out. A result is 10 or 20, or 0 if the queue was empty.
#include <stdatomic.h>

struct cell {
  _Atomic unsigned sequence;
  int number;
};

static struct cell cells[2] = {{0, 0}, {1, 0}};
static _Atomic unsigned put_at, take_at;

/* The cell at a place whose sequence is `ahead` of it, or null; the place is taken. */
static struct cell *claim(_Atomic unsigned *place, unsigned ahead, unsigned *claimed) {
  unsigned at = atomic_load_explicit(place, memory_order_relaxed);
  for (;;) {
    struct cell *cell = &cells[at & 1];
    int distance = (int)(atomic_load_explicit(&cell->sequence, memory_order_acquire) - (at + ahead));
    if (distance < 0) return 0;
    if (distance > 0) at = atomic_load_explicit(place, memory_order_relaxed);
    else if (atomic_compare_exchange_weak_explicit(place, &at, at + 1, memory_order_relaxed, memory_order_relaxed)) {
      *claimed = at;
      return cell;
    }
  }
}

static int exchange(int number) {
  unsigned at;
  struct cell *cell = claim(&put_at, 0, &at);
  if (cell) {
    cell->number = number;
    atomic_store_explicit(&cell->sequence, at + 1, memory_order_release);
  }
  cell = claim(&take_at, 1, &at);
  if (!cell) return 0;
  int taken = cell->number;
  atomic_store_explicit(&cell->sequence, at + 2, memory_order_release);
  return taken;
}

__attribute__((export_name("first"))) int first(void) { return exchange(10); }
__attribute__((export_name("second"))) int second(void) { return exchange(20); }
