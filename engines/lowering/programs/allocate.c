// An allocator that asks for more memory when its pages are full, and counts what it did not get.
#define PAGE 65536u

extern unsigned char __heap_base;
static unsigned top, refused;

static void *allocate(unsigned size) {
  if (!top) top = (unsigned)&__heap_base;
  unsigned start = (top + 7) & ~7u;
  if (start + size > __builtin_wasm_memory_size(0) * PAGE) {
    if ((int)__builtin_wasm_memory_grow(0, size / PAGE + 1) < 0) { refused++; return 0; }
  }
  top = start + size;
  return (void *)start;
}

__attribute__((export_name("run"))) int run(unsigned seed, unsigned count) {
  int sum = 0;
  for (unsigned i = 0; i < count % 20; i++) {
    seed = seed * 1103515245 + 12345;
    unsigned size = seed / 7 % 20000 + 1;
    unsigned char *memory = allocate(size);
    if (memory) __builtin_memset(memory, (int)seed, size);
    sum += memory ? memory[size / 2] : -1;
  }
  return sum * 100 + (int)refused;
}
