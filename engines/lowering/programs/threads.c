// A buffer of two places between threads, with a mutex and condition variables that wait and notify. What the threads return and
// leave in memory is the same in every order.
#include <stdatomic.h>

static _Atomic unsigned mutex, filled, emptied;
static unsigned places[2], put_at, taken_at, waiting;
static unsigned sum, checksum;

static int *word(_Atomic unsigned *of) { return (int *)of; }

static void lock(void) {
  unsigned seen = 0;
  if (atomic_compare_exchange_strong(&mutex, &seen, 1)) return;
  if (seen != 2) seen = atomic_exchange(&mutex, 2);
  while (seen) {
    __builtin_wasm_memory_atomic_wait32(word(&mutex), 2, -1);
    seen = atomic_exchange(&mutex, 2);
  }
}

static void unlock(void) {
  if (atomic_exchange(&mutex, 0) == 2) __builtin_wasm_memory_atomic_notify(word(&mutex), 1);
}

static void wait_for(_Atomic unsigned *condition) {
  unsigned before = *condition;
  unlock();
  __builtin_wasm_memory_atomic_wait32(word(condition), (int)before, -1);
  lock();
}

static void signal(_Atomic unsigned *condition) {
  atomic_fetch_add(condition, 1);
  __builtin_wasm_memory_atomic_notify(word(condition), ~0u);
}

__attribute__((export_name("produce"))) int produce(unsigned seed, unsigned count) {
  for (unsigned i = 0; i < count; i++) {
    seed = seed * 1664525 + 1013904223;
    lock();
    while (waiting == 2) wait_for(&emptied);
    places[put_at++ % 2] = seed;
    waiting++;
    signal(&filled);
    unlock();
  }
  return (int)seed;
}

__attribute__((export_name("consume"))) int consume(unsigned seed, unsigned count) {
  for (unsigned i = 0; i < count; i++) {
    lock();
    while (waiting == 0) wait_for(&filled);
    unsigned number = places[taken_at++ % 2];
    waiting--;
    sum += number;
    checksum = checksum * 31 + (number ^ seed);
    signal(&emptied);
    unlock();
  }
  return (int)checksum;
}
