// A spin lock around a counter and a table that is only read.
#include <stdatomic.h>

static _Atomic int lock_word;
static int counter;
static const int table[4] = {10, 20, 30, 40};

static void lock(void) {
  int open = 0;
  while (!atomic_compare_exchange_strong(&lock_word, &open, 1)) open = 0;
}

static void unlock(void) { atomic_store(&lock_word, 0); }

__attribute__((export_name("work"))) int work(int rounds) {
  int sum = 0;
  for (int i = 0; i < rounds; i++) {
    lock();
    counter++;
    sum += table[counter & 3];
    unlock();
  }
  return sum;
}
