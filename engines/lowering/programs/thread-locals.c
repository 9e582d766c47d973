// Thread-local variables with and without initial values, linked with the linker's own --shared-memory.
#include <stdatomic.h>

static _Thread_local int depth = 3;
static _Thread_local unsigned counts[5];
static _Thread_local _Alignas(16) unsigned char letters[24] = "a block of each thread";
static _Thread_local long long total = 0x1234567890;
static _Atomic unsigned all;
static int numbers[4] = {1, 2, 3, 4};

static unsigned *slot(unsigned at) { return &counts[at % 5]; }

__attribute__((export_name("run"))) int run(unsigned seed, unsigned count) {
  for (unsigned i = 0; i < count % 30; i++) {
    seed = seed * 1664525 + 1013904223;
    *slot(seed >> 8) += (unsigned)numbers[seed >> 30]++;
    letters[seed % 24] ^= (unsigned char)(seed >> 16);
    depth += (int)(seed & 7);
    total = total * 3 + depth;
    atomic_fetch_add(&all, counts[i % 5]);
  }
  return depth + (int)total + letters[3] + (int)all;
}
