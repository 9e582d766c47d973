// An allocator that grows the memory up to its maximum, and then counts what it did not get.
#define PAGE 65536u

extern unsigned char __heap_base;
static unsigned top, refused;

static void *allocate(unsigned size) {
  if (!top) top = (unsigned)&__heap_base;
  unsigned start = (top + 7) & ~7u;
  while (start + size > __builtin_wasm_memory_size(0) * PAGE) {
    if (__builtin_wasm_memory_grow(0, size / PAGE + 1) == -1ul) { refused++; return 0; }
  }
  top = start + size;
  return (void *)start;
}

__attribute__((export_name("run"))) int run(unsigned seed, unsigned count) {
  int sum = 0;
  for (unsigned i = 0; i < count % 20; i++) {
    seed = seed * 1103515245 + 12345;
    unsigned size = seed / 7 % 40000 + 1;
    unsigned char *memory = allocate(size);
    if (memory) { memory[0] = (unsigned char)seed; memory[size - 1] = (unsigned char)(seed >> 8); }
    sum += memory ? memory[size / 2] + memory[0] : -1;
  }
  return sum * 100 + (int)refused;
}

__attribute__((export_name("grow"))) int grow(unsigned seed, unsigned count) {
  int sum = 0;
  for (unsigned i = 0; i < 4; i++) {
    sum = sum * 20 + (int)__builtin_wasm_memory_grow(0, (seed >> (4 * i)) & (count & 1 ? 3 : 0x7fffffff));
  }
  return sum * 20 + (int)__builtin_wasm_memory_size(0);
}
