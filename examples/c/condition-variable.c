// A buffer of one place with a mutex and a condition variable, whose sequence number changes at each signal. The producer puts 1,
// 2 and 3; the consumer's result has them as digits: 123.
#include <stdatomic.h>

static _Atomic unsigned mutex, sequence;
static int place;
static int full;

static void lock(void) {
  while (atomic_exchange(&mutex, 1)) __builtin_wasm_memory_atomic_wait32((int *)&mutex, 1, -1);
}

static void unlock(void) {
  atomic_store(&mutex, 0);
  __builtin_wasm_memory_atomic_notify((int *)&mutex, 1);
}

static void wait_for_change(void) {
  unsigned before = atomic_load(&sequence);
  unlock();
  __builtin_wasm_memory_atomic_wait32((int *)&sequence, (int)before, -1);
  lock();
}

static void signal_all(void) {
  atomic_fetch_add(&sequence, 1);
  __builtin_wasm_memory_atomic_notify((int *)&sequence, ~0u);
}

__attribute__((export_name("producer"))) void producer(void) {
  for (int number = 1; number <= 3; number++) {
    lock();
    while (full) wait_for_change();
    place = number;
    full = 1;
    signal_all();
    unlock();
  }
}

__attribute__((export_name("consumer"))) int consumer(void) {
  int digits = 0;
  for (int i = 0; i < 3; i++) {
    lock();
    while (!full) wait_for_change();
    digits = digits * 10 + place;
    full = 0;
    signal_all();
    unlock();
  }
  return digits;
}
