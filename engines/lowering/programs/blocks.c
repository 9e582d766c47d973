// Moves and fills blocks of bytes, some of which overlap or end past the memory.
#include <stddef.h>

static signed char bytes[256];

__attribute__((export_name("run"))) int run(unsigned seed, unsigned count) {
  for (int i = 0; i < 256; i++) bytes[i] = (signed char)(seed * (i + 1));
  unsigned from = seed % 100, to = seed / 100 % 100, length = count % 150;
  __builtin_memmove(bytes + to, bytes + from, length);
  __builtin_memset(bytes + 200, (int)seed, count % 50);
  if (count % 11 == 0) __builtin_memset(bytes + to, 1, count);
  if (count % 13 == 0) __builtin_memmove(bytes + to, bytes, count);
  int sum = 0;
  for (int i = 0; i < 256; i++) sum = sum * 31 + bytes[i];
  return sum;
}

__attribute__((export_name("extend"))) long long extend(unsigned seed, unsigned count) {
  long long wide = (signed char)seed + (long long)(short)count;
  return wide + (long long)(int)(seed * count) + (short)(seed >> 3) + (signed char)(count >> 5);
}
