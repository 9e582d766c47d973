// Floats that are moved, stored, loaded, compared as bits and given another sign; constants, globals in memory, and unions.
struct place { float x, y; double z; };
union bits { float f; unsigned u; };
union wide { double d; unsigned long long u; };

static struct place places[8] = {{1.5f, -2.25f, 3.125}, {0.0f, -0.0f, 1e300}};
static float sample = 2.5f;
static double weight = -1e-310;

__attribute__((noinline)) static float pick(int which, float a, float b) { return which ? a : b; }
__attribute__((noinline)) static double turned(int which, double a, double b) {
  return which & 1 ? -a : which & 2 ? __builtin_fabs(b) : __builtin_copysign(a, b);
}

__attribute__((export_name("run"))) int run(unsigned seed, unsigned count) {
  for (unsigned i = 0; i < count % 20; i++) {
    seed = seed * 1664525 + 1013904223;
    struct place *from = &places[seed >> 29], *to = &places[seed >> 20 & 7];
    union bits made = {.u = seed};
    union wide large = {.u = (unsigned long long)seed << 32 | seed};
    if (i % 3 == 0) *to = *from;
    to->x = pick((int)(seed & 16), made.f, sample);
    to->y = pick((int)(seed & 32), -from->x, __builtin_copysignf(from->y, made.f));
    to->z = turned((int)(seed >> 6 & 3), seed & 512 ? large.d : weight, from->z);
    if (seed & 1024) sample = -3.75f;
  }
  union bits x = {.f = places[count % 8].x};
  union wide z = {.d = places[count % 8].z};
  return (int)(x.u ^ (unsigned)z.u ^ (unsigned)(z.u >> 32));
}
