// Floats: a sensor writes positions of two doubles under a sequence lock, by plain stores; a reader's result is the sum of both in
// tenths, or 0 if it was disturbed. The sums are 15, 30 and 45 tenths.
// lower: --soft-floats
#include <stdatomic.h>

struct position {
  double x, y;
};

static _Atomic unsigned sequence;
static struct position position = {0.5, 1.0};

__attribute__((export_name("sensor"))) void sensor(void) {
  for (int i = 0; i < 2; i++) {
    atomic_fetch_add(&sequence, 1);
    position.x += 0.5;
    position.y += 1.0;
    atomic_fetch_add(&sequence, 1);
  }
}

__attribute__((export_name("reader"))) int reader(void) {
  unsigned before = atomic_load(&sequence);
  struct position seen = position;
  if (before % 2 || atomic_load(&sequence) != before) return 0;
  return (int)((seen.x + seen.y) * 10.0 + 0.5);
}
