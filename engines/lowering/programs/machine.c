// A small machine whose instructions are functions of several types, called by a number that may be wrong.
static int numbers[8] = {3, 1, 4, 1, 5, 9, 2, 6};
static int steps;

__attribute__((noinline)) static int add(int a, int b) { return a + b; }
__attribute__((noinline)) static int mix(int a, int b) { return a * 31 ^ b; }
__attribute__((noinline)) static void count(void) { steps++; }
__attribute__((noinline)) static long long widen(int a) { return (long long)a << 33; }

static void *volatile table[] = {(void *)add, (void *)mix, (void *)count, (void *)widen, 0, (void *)99};

__attribute__((export_name("run"))) int run(int seed, unsigned which) {
  int value = seed;
  for (int i = 0; i < 8; i++) {
    ((void (*)(void))table[2])();
    value = ((int (*)(int, int))table[which % (which % 5 ? 2 : 6)])(value, numbers[i]);
    numbers[i] += value & 7;
  }
  return value + steps + (int)(((long long (*)(int))table[3])(value) >> 33);
}
