// An allocator that moves a shared top up, and asks for a page if its room is full, which fails here. Two threads allocate twice
// and write their numbers all over. A result has a digit for each block: 1 if it stayed as it was written, 0 if it was refused.
// lower: --no-growth
#include <stdatomic.h>
#include <stdint.h>

static _Alignas(8) char room[40];
static _Atomic uint32_t used;

static char *allocate(uint32_t size) {
  uint32_t start = atomic_fetch_add_explicit(&used, size, memory_order_relaxed);
  if (start + size <= sizeof room) return room + start;
  uint32_t page = __builtin_wasm_memory_grow(0, 1);
  return page == UINT32_MAX ? 0 : (char *)(page << 16);
}

static int fill(int number) {
  char *block = allocate(16);
  if (!block) return 0;
  for (int k = 0; k < 16; k += 4) *(int *)(block + k) = number;
  return *(int *)block == number && *(int *)(block + 12) == number;
}

static int fill_twice(int number) {
  int first = fill(number);
  return first * 10 + fill(number + 1);
}

__attribute__((export_name("first"))) int first(void) { return fill_twice(3); }
__attribute__((export_name("second"))) int second(void) { return fill_twice(5); }
