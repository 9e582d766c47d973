// Linked with the linker's own --shared-memory: passive segments, a start function that waits and notifies, fences.
#include <stdatomic.h>

static int primes[] = {2, 3, 5, 7, 11, 13};
static char name[40] = "initialized by the linker";
static int zeros[200];
static const unsigned char weights[] = {1, 5, 25, 125, 113, 53, 9, 45, 225, 101};
static _Atomic int turns;

__attribute__((export_name("run"))) int run(unsigned seed, unsigned count) {
  for (unsigned i = 0; i < count % 30; i++) {
    zeros[(seed + i) % 200] += primes[i % 6]++ * weights[(seed ^ i) % 10];
    atomic_thread_fence(memory_order_seq_cst);
    name[i % 40] ^= (char)atomic_fetch_add_explicit(&turns, 1, memory_order_relaxed);
  }
  int sum = turns;
  for (int i = 0; i < 200; i++) sum = sum * 3 + zeros[i];
  for (int i = 0; i < 40; i++) sum = sum * 5 + name[i];
  return sum;
}
