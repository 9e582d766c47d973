// What C's math.h has that is an instruction of WebAssembly, or a few of them. The compiler brings no math.h for this target.
// Programs with floats are lowered with --soft-floats.
#ifndef MATH_H
#define MATH_H

#define INFINITY __builtin_inff()
#define NAN __builtin_nanf("")
#define isnan(x) __builtin_isnan(x)
#define isinf(x) __builtin_isinf(x)
#define isfinite(x) __builtin_isfinite(x)
#define signbit(x) __builtin_signbit(x)

static inline double fabs(double x) { return __builtin_fabs(x); }
static inline double sqrt(double x) { return __builtin_sqrt(x); }
static inline double floor(double x) { return __builtin_floor(x); }
static inline double ceil(double x) { return __builtin_ceil(x); }
static inline double trunc(double x) { return __builtin_trunc(x); }
static inline double nearbyint(double x) { return __builtin_nearbyint(x); }
static inline double copysign(double x, double y) { return __builtin_copysign(x, y); }
static inline double fmin(double x, double y) { return isnan(x) || y < x ? y : x; }
static inline double fmax(double x, double y) { return isnan(x) || y > x ? y : x; }
static inline double round(double x) {
  double whole = trunc(x);
  return fabs(x - whole) >= 0.5 ? whole + copysign(1, x) : whole;
}
static inline long lround(double x) { return (long)round(x); }

static inline float fabsf(float x) { return __builtin_fabsf(x); }
static inline float sqrtf(float x) { return __builtin_sqrtf(x); }
static inline float floorf(float x) { return __builtin_floorf(x); }
static inline float ceilf(float x) { return __builtin_ceilf(x); }
static inline float truncf(float x) { return __builtin_truncf(x); }
static inline float nearbyintf(float x) { return __builtin_nearbyintf(x); }
static inline float copysignf(float x, float y) { return __builtin_copysignf(x, y); }
static inline float fminf(float x, float y) { return isnan(x) || y < x ? y : x; }
static inline float fmaxf(float x, float y) { return isnan(x) || y > x ? y : x; }
static inline float roundf(float x) { return (float)round(x); }
static inline long lroundf(float x) { return (long)roundf(x); }

#endif
