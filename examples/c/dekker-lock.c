// Dekker's lock for two threads: the one whose turn it is not steps back. Each thread's result is the count that it saw.
#include <stdatomic.h>

static _Atomic int wants[2], turn;
static int count;

static int enter(int me) {
  int other = 1 - me;
  wants[me] = 1;
  while (wants[other]) {
    if (turn == me) continue;
    wants[me] = 0;
    while (turn != me) {
    }
    wants[me] = 1;
  }
  int seen = ++count;
  turn = other;
  wants[me] = 0;
  return seen;
}

__attribute__((export_name("first"))) int first(void) { return enter(0); }
__attribute__((export_name("second"))) int second(void) { return enter(1); }
