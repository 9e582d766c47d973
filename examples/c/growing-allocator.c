// An allocator that takes a page of its own for each block, by memory.grow. Each thread allocates two blocks, writes its number
// into both ends of each and reads them back. A result has the blocks as digits: 11 if both are there and kept, 0 for one that
// was refused. The memory has room for all four.
#include <stdint.h>

#define PAGE 65536

static char *allocate(void) {
  uintptr_t page = __builtin_wasm_memory_grow(0, 1);
  return page == UINTPTR_MAX ? 0 : (char *)(page * PAGE);
}

static int fill(int number) {
  char *block = allocate();
  if (!block) return 0;
  int *first = (int *)block, *last = (int *)(block + PAGE) - 1;
  *first = number;
  *last = number + 1;
  return *first == number && *last == number + 1;
}

static int fill_twice(int number) {
  int first = fill(number);
  return first * 10 + fill(number + 2);
}

__attribute__((export_name("first"))) int first(void) { return fill_twice(10); }
__attribute__((export_name("second"))) int second(void) { return fill_twice(20); }
