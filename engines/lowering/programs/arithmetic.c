// Arithmetic of floats: means, a polynomial, roots, conversions that may trap, and comparisons. No NaN is stored.
static double mean, most;
static float history[16];

static double known(double a) { return a == a ? a : 0.0; }

__attribute__((export_name("run"))) int run(unsigned seed, unsigned count) {
  for (unsigned i = 0; i < count % 40; i++) {
    seed = seed * 1664525 + 1013904223;
    double value = (double)(int)seed / ((double)(seed >> 20) - 1000.5);
    mean = known(mean + (value - mean) / (i + 1));
    if (value > most) most = value;
    float small = (float)value * 1.25f + history[i % 16];
    history[i % 16] = (float)known(__builtin_sqrtf(__builtin_fabsf(small)) - __builtin_floorf(small / 3.0f));
  }
  return (int)(long long)(__builtin_ceil(most) + __builtin_nearbyint(mean));
}

__attribute__((export_name("polynomial"))) long long polynomial(int x, unsigned count) {
  double sum = 0.0, power = 1.0;
  for (unsigned i = 0; i < count % 12; i++) {
    sum += power / (i + 1);
    power *= x * 1e-3;
  }
  mean = known(sum);
  return sum < 0 ? -1 : sum > 9e18 ? 1 : (long long)(sum * 1000.0);
}
