// Arithmetic of floats by integers: IEEE 754, rounded to the nearest number, ties to even. Each function has the name of the
// instruction that it takes the place of; floats are their bits. A NaN is the canonical one. No function uses the memory.
#include <stdint.h>

typedef uint32_t f32;
typedef uint64_t f64;

#define EXPORT(name) __attribute__((export_name(name)))

// ---- The parts of a float. An f32 is computed as an f64's parts are: sign, exponent, and a significand of 64 bits.

// A number that is not zero: (-1)^sign * significand * 2^(exponent - 63), where the significand's highest bit is set.
struct number {
  uint64_t significand;
  int32_t exponent;
  uint32_t sign;
};

#define FRACTION32 23
#define FRACTION64 52
#define BIAS32 127
#define BIAS64 1023
#define NAN32 UINT32_C(0x7fc00000)
#define NAN64 UINT64_C(0x7ff8000000000000)
#define INFINITY32 UINT32_C(0x7f800000)
#define INFINITY64 UINT64_C(0x7ff0000000000000)
#define SIGN32 UINT32_C(0x80000000)
#define SIGN64 UINT64_C(0x8000000000000000)

static inline int is_nan64(f64 a) { return (a & ~SIGN64) > INFINITY64; }
static inline int is_nan32(f32 a) { return (a & ~SIGN32) > INFINITY32; }

// What a finite number other than zero is. Subnormal ones are made normal.
static inline struct number unpack(uint64_t fraction, int32_t biased, uint32_t sign, int fraction_bits, int bias) {
  struct number n;
  n.sign = sign;
  if (biased == 0) {
    int shift = __builtin_clzll(fraction);
    n.significand = fraction << shift;
    n.exponent = 1 - bias + (63 - fraction_bits) - shift;
  } else {
    n.significand = (fraction | (UINT64_C(1) << fraction_bits)) << (63 - fraction_bits);
    n.exponent = biased - bias;
  }
  return n;
}

static inline struct number unpack64(f64 a) {
  return unpack(a & ((UINT64_C(1) << FRACTION64) - 1), (int32_t)(a >> FRACTION64) & 0x7ff, (uint32_t)(a >> 63), FRACTION64, BIAS64);
}

static inline struct number unpack32(f32 a) {
  return unpack(a & ((UINT32_C(1) << FRACTION32) - 1), (int32_t)(a >> FRACTION32) & 0xff, a >> 31, FRACTION32, BIAS32);
}

// Shifts to the right; bits that are lost set the lowest bit of the result.
static inline uint64_t shift_sticky(uint64_t value, int32_t count) {
  if (count <= 0) return value;
  if (count > 63) return value != 0;
  return value >> count | ((value << (64 - count)) != 0);
}

// Rounds a number to a format, as the bits without the sign. The significand may have a sticky lowest bit.
static inline uint64_t round_to(struct number n, int fraction_bits, int bias, uint64_t infinity) {
  int extra = 63 - fraction_bits;
  uint64_t significand = n.significand;
  int32_t biased = n.exponent + bias;
  if (biased <= 0) {
    significand = shift_sticky(significand, 1 - biased);
    biased = 0;
  } else {
    biased -= 1; // the highest bit of the significand adds 1 to it
  }
  uint64_t rest = significand & ((UINT64_C(1) << extra) - 1), half = UINT64_C(1) << (extra - 1);
  uint64_t bits = ((uint64_t)biased << fraction_bits) + (significand >> extra);
  bits += rest > half || (rest == half && (bits & 1));
  if (biased >= 2 * bias || bits >= infinity) return infinity;
  return bits;
}

static inline f64 pack64(struct number n) { return (uint64_t)n.sign << 63 | round_to(n, FRACTION64, BIAS64, INFINITY64); }
static inline f32 pack32(struct number n) { return n.sign << 31 | (f32)round_to(n, FRACTION32, BIAS32, INFINITY32); }

// ---- Sums, products, quotients and roots of numbers

// The sum of two numbers; the significand is 0 if it is zero.
static inline struct number sum_of(struct number a, struct number b) {
  if (a.exponent < b.exponent || (a.exponent == b.exponent && a.significand < b.significand)) {
    struct number swapped = a;
    a = b;
    b = swapped;
  }
  // Two bits of room above would be needed for the sum, and below for the difference: an f64's significand has 11 to spare.
  uint64_t large = a.significand >> 2, small = shift_sticky(b.significand >> 2, a.exponent - b.exponent);
  uint64_t significand = a.sign == b.sign ? large + small : large - small;
  if (significand == 0) return (struct number){0, 0, 0};
  int shift = __builtin_clzll(significand);
  return (struct number){significand << shift, a.exponent + 2 - shift, a.sign};
}

// The upper half of a product, whose lowest bit is set if the lower half is not zero.
static inline uint64_t upper_product(uint64_t a, uint64_t b) {
  uint64_t a0 = a & UINT32_MAX, a1 = a >> 32, b0 = b & UINT32_MAX, b1 = b >> 32;
  uint64_t middle = a1 * b0 + (a0 * b0 >> 32), other = a0 * b1 + (middle & UINT32_MAX);
  uint64_t upper = a1 * b1 + (middle >> 32) + (other >> 32);
  return upper | (a * b != 0);
}

static inline struct number product_of(struct number a, struct number b) {
  uint64_t significand = upper_product(a.significand, b.significand);
  int shift = __builtin_clzll(significand);
  return (struct number){significand << shift, a.exponent + b.exponent + 1 - shift, a.sign ^ b.sign};
}

// The quotient by long division: a bit in each step, of as many bits as a format needs, and a sticky one.
static inline struct number quotient_of(struct number a, struct number b, int bits) {
  uint64_t rest = a.significand, divisor = b.significand, quotient = 0;
  int32_t exponent = a.exponent - b.exponent;
  if (rest < divisor) {
    exponent--;
    // The first bit is known; the remainder has 65 bits, and the subtraction wraps around.
    quotient = 1;
    rest = (rest << 1) - divisor;
  } else {
    quotient = 1;
    rest -= divisor;
  }
  for (int i = 1; i < bits; i++) {
    int carry = (int)(rest >> 63);
    rest <<= 1;
    quotient <<= 1;
    if (carry || rest >= divisor) {
      rest -= divisor;
      quotient |= 1;
    }
  }
  return (struct number){quotient << (64 - bits) | (rest != 0), exponent, a.sign ^ b.sign};
}

// The root of a positive number, a bit in each step.
static inline struct number root_of(struct number a, int bits) {
  uint64_t value = a.significand;
  int32_t exponent = a.exponent;
  // value * 2^exponent with an even exponent: the value has its point behind the highest two bits.
  if (exponent & 1) exponent -= 1;
  else value >>= 1;
  uint64_t lost = (a.exponent & 1) ? 0 : a.significand & 1;
  uint64_t root = 0, rest = 0;
  for (int i = 0; i < bits; i++) {
    rest = rest << 2 | value >> 62;
    value <<= 2;
    uint64_t trial = root << 2 | 1;
    root <<= 1;
    if (rest >= trial) {
      rest -= trial;
      root |= 1;
    }
  }
  return (struct number){root << (64 - bits) | (rest != 0 || value != 0 || lost), exponent / 2, 0};
}

// ---- f64

static inline f64 add64(f64 a, f64 b) {
  f64 x = a & ~SIGN64, y = b & ~SIGN64;
  if (x > INFINITY64 || y > INFINITY64) return NAN64;
  if (x == INFINITY64) return y == INFINITY64 && a != b ? NAN64 : a;
  if (y == INFINITY64) return b;
  if (x == 0) return y == 0 ? a & b : b;
  if (y == 0) return a;
  struct number sum = sum_of(unpack64(a), unpack64(b));
  return sum.significand == 0 ? 0 : pack64(sum);
}

EXPORT("f64.add") f64 f64_add(f64 a, f64 b) { return add64(a, b); }
EXPORT("f64.sub") f64 f64_sub(f64 a, f64 b) { return add64(a, b ^ SIGN64); }

EXPORT("f64.mul") f64 f64_mul(f64 a, f64 b) {
  f64 x = a & ~SIGN64, y = b & ~SIGN64, sign = (a ^ b) & SIGN64;
  if (x > INFINITY64 || y > INFINITY64) return NAN64;
  if (x == INFINITY64 || y == INFINITY64) return x == 0 || y == 0 ? NAN64 : sign | INFINITY64;
  if (x == 0 || y == 0) return sign;
  return pack64(product_of(unpack64(a), unpack64(b)));
}

EXPORT("f64.div") f64 f64_div(f64 a, f64 b) {
  f64 x = a & ~SIGN64, y = b & ~SIGN64, sign = (a ^ b) & SIGN64;
  if (x > INFINITY64 || y > INFINITY64) return NAN64;
  if (x == INFINITY64) return y == INFINITY64 ? NAN64 : sign | INFINITY64;
  if (y == 0) return x == 0 ? NAN64 : sign | INFINITY64;
  if (x == 0 || y == INFINITY64) return sign;
  return pack64(quotient_of(unpack64(a), unpack64(b), FRACTION64 + 3));
}

EXPORT("f64.sqrt") f64 f64_sqrt(f64 a) {
  if (is_nan64(a)) return NAN64;
  if ((a & ~SIGN64) == 0 || a == INFINITY64) return a;
  if (a & SIGN64) return NAN64;
  return pack64(root_of(unpack64(a), FRACTION64 + 3));
}

static inline int less64(f64 a, f64 b) {
  if (is_nan64(a) || is_nan64(b)) return 0;
  if (((a | b) & ~SIGN64) == 0) return 0;
  if ((a ^ b) & SIGN64) return (a & SIGN64) != 0;
  return a & SIGN64 ? a > b : a < b;
}

static inline int equal64(f64 a, f64 b) {
  if (is_nan64(a) || is_nan64(b)) return 0;
  return a == b || ((a | b) & ~SIGN64) == 0;
}

EXPORT("f64.eq") int f64_eq(f64 a, f64 b) { return equal64(a, b); }
EXPORT("f64.ne") int f64_ne(f64 a, f64 b) { return !equal64(a, b); }
EXPORT("f64.lt") int f64_lt(f64 a, f64 b) { return less64(a, b); }
EXPORT("f64.gt") int f64_gt(f64 a, f64 b) { return less64(b, a); }
EXPORT("f64.le") int f64_le(f64 a, f64 b) { return less64(a, b) | equal64(a, b); }
EXPORT("f64.ge") int f64_ge(f64 a, f64 b) { return less64(b, a) | equal64(a, b); }

EXPORT("f64.min") f64 f64_min(f64 a, f64 b) {
  if (is_nan64(a) || is_nan64(b)) return NAN64;
  if (equal64(a, b)) return a | b; // of zeros the negative one
  return less64(a, b) ? a : b;
}

EXPORT("f64.max") f64 f64_max(f64 a, f64 b) {
  if (is_nan64(a) || is_nan64(b)) return NAN64;
  if (equal64(a, b)) return a & b;
  return less64(a, b) ? b : a;
}

// How a float is made an integer of the same format.
enum direction { TO_NEAREST, TOWARDS_ZERO, UP, DOWN };

static inline uint64_t integral(uint64_t a, int fraction_bits, int bias, uint64_t nan, enum direction direction) {
  int total = fraction_bits == FRACTION64 ? 64 : 32;
  uint64_t sign = a & (UINT64_C(1) << (total - 1)), x = a ^ sign;
  uint64_t infinity = (uint64_t)(2 * bias + 1) << fraction_bits;
  if (x > infinity) return nan;
  int exponent = (int)(x >> fraction_bits) - bias;
  if (x == 0 || exponent >= fraction_bits) return a;
  int away = direction == UP ? !sign : direction == DOWN ? sign != 0 : 0;
  if (exponent < 0) {
    uint64_t one = (uint64_t)bias << fraction_bits, half = one - (UINT64_C(1) << fraction_bits);
    if (direction == TO_NEAREST) away = x > half;
    return sign | (away ? one : 0);
  }
  uint64_t unit = UINT64_C(1) << (fraction_bits - exponent), rest = x & (unit - 1), down = x - rest;
  if (direction == TO_NEAREST) away = rest > unit / 2 || (rest == unit / 2 && (down & unit));
  return sign | (rest && away ? down + unit : down);
}

EXPORT("f64.nearest") f64 f64_nearest(f64 a) { return integral(a, FRACTION64, BIAS64, NAN64, TO_NEAREST); }
EXPORT("f64.trunc") f64 f64_trunc(f64 a) { return integral(a, FRACTION64, BIAS64, NAN64, TOWARDS_ZERO); }
EXPORT("f64.ceil") f64 f64_ceil(f64 a) { return integral(a, FRACTION64, BIAS64, NAN64, UP); }
EXPORT("f64.floor") f64 f64_floor(f64 a) { return integral(a, FRACTION64, BIAS64, NAN64, DOWN); }

// ---- f32

static inline f32 add32(f32 a, f32 b) {
  f32 x = a & ~SIGN32, y = b & ~SIGN32;
  if (x > INFINITY32 || y > INFINITY32) return NAN32;
  if (x == INFINITY32) return y == INFINITY32 && a != b ? NAN32 : a;
  if (y == INFINITY32) return b;
  if (x == 0) return y == 0 ? a & b : b;
  if (y == 0) return a;
  struct number sum = sum_of(unpack32(a), unpack32(b));
  return sum.significand == 0 ? 0 : pack32(sum);
}

EXPORT("f32.add") f32 f32_add(f32 a, f32 b) { return add32(a, b); }
EXPORT("f32.sub") f32 f32_sub(f32 a, f32 b) { return add32(a, b ^ SIGN32); }

EXPORT("f32.mul") f32 f32_mul(f32 a, f32 b) {
  f32 x = a & ~SIGN32, y = b & ~SIGN32, sign = (a ^ b) & SIGN32;
  if (x > INFINITY32 || y > INFINITY32) return NAN32;
  if (x == INFINITY32 || y == INFINITY32) return x == 0 || y == 0 ? NAN32 : sign | INFINITY32;
  if (x == 0 || y == 0) return sign;
  return pack32(product_of(unpack32(a), unpack32(b)));
}

EXPORT("f32.div") f32 f32_div(f32 a, f32 b) {
  f32 x = a & ~SIGN32, y = b & ~SIGN32, sign = (a ^ b) & SIGN32;
  if (x > INFINITY32 || y > INFINITY32) return NAN32;
  if (x == INFINITY32) return y == INFINITY32 ? NAN32 : sign | INFINITY32;
  if (y == 0) return x == 0 ? NAN32 : sign | INFINITY32;
  if (x == 0 || y == INFINITY32) return sign;
  return pack32(quotient_of(unpack32(a), unpack32(b), FRACTION32 + 3));
}

EXPORT("f32.sqrt") f32 f32_sqrt(f32 a) {
  if (is_nan32(a)) return NAN32;
  if ((a & ~SIGN32) == 0 || a == INFINITY32) return a;
  if (a & SIGN32) return NAN32;
  return pack32(root_of(unpack32(a), FRACTION32 + 3));
}

static inline int less32(f32 a, f32 b) {
  if (is_nan32(a) || is_nan32(b)) return 0;
  if (((a | b) & ~SIGN32) == 0) return 0;
  if ((a ^ b) & SIGN32) return (a & SIGN32) != 0;
  return a & SIGN32 ? a > b : a < b;
}

static inline int equal32(f32 a, f32 b) {
  if (is_nan32(a) || is_nan32(b)) return 0;
  return a == b || ((a | b) & ~SIGN32) == 0;
}

EXPORT("f32.eq") int f32_eq(f32 a, f32 b) { return equal32(a, b); }
EXPORT("f32.ne") int f32_ne(f32 a, f32 b) { return !equal32(a, b); }
EXPORT("f32.lt") int f32_lt(f32 a, f32 b) { return less32(a, b); }
EXPORT("f32.gt") int f32_gt(f32 a, f32 b) { return less32(b, a); }
EXPORT("f32.le") int f32_le(f32 a, f32 b) { return less32(a, b) | equal32(a, b); }
EXPORT("f32.ge") int f32_ge(f32 a, f32 b) { return less32(b, a) | equal32(a, b); }

EXPORT("f32.min") f32 f32_min(f32 a, f32 b) {
  if (is_nan32(a) || is_nan32(b)) return NAN32;
  if (equal32(a, b)) return a | b;
  return less32(a, b) ? a : b;
}

EXPORT("f32.max") f32 f32_max(f32 a, f32 b) {
  if (is_nan32(a) || is_nan32(b)) return NAN32;
  if (equal32(a, b)) return a & b;
  return less32(a, b) ? b : a;
}

EXPORT("f32.nearest") f32 f32_nearest(f32 a) { return (f32)integral(a, FRACTION32, BIAS32, NAN32, TO_NEAREST); }
EXPORT("f32.trunc") f32 f32_trunc(f32 a) { return (f32)integral(a, FRACTION32, BIAS32, NAN32, TOWARDS_ZERO); }
EXPORT("f32.ceil") f32 f32_ceil(f32 a) { return (f32)integral(a, FRACTION32, BIAS32, NAN32, UP); }
EXPORT("f32.floor") f32 f32_floor(f32 a) { return (f32)integral(a, FRACTION32, BIAS32, NAN32, DOWN); }

// ---- From one format to the other, and from integers

EXPORT("f64.promote_f32") f64 f64_promote_f32(f32 a) {
  f32 x = a & ~SIGN32;
  f64 sign = (f64)(a >> 31) << 63;
  if (x > INFINITY32) return NAN64;
  if (x == INFINITY32) return sign | INFINITY64;
  return x == 0 ? sign : pack64(unpack32(a));
}

EXPORT("f32.demote_f64") f32 f32_demote_f64(f64 a) {
  f64 x = a & ~SIGN64;
  f32 sign = (f32)(a >> 63) << 31;
  if (x > INFINITY64) return NAN32;
  if (x == INFINITY64) return sign | INFINITY32;
  return x == 0 ? sign : pack32(unpack64(a));
}

static inline struct number integer(uint64_t magnitude, uint32_t sign) {
  int shift = __builtin_clzll(magnitude);
  return (struct number){magnitude << shift, 63 - shift, sign};
}

static inline uint64_t magnitude_of(int64_t a) { return a < 0 ? -(uint64_t)a : (uint64_t)a; }

static inline f64 from64(uint64_t magnitude, uint32_t sign) { return magnitude == 0 ? 0 : pack64(integer(magnitude, sign)); }
static inline f32 from32(uint64_t magnitude, uint32_t sign) { return magnitude == 0 ? 0 : pack32(integer(magnitude, sign)); }

EXPORT("f64.convert_i32_s") f64 f64_convert_i32_s(int32_t a) { return from64(magnitude_of(a), a < 0); }
EXPORT("f64.convert_i32_u") f64 f64_convert_i32_u(uint32_t a) { return from64(a, 0); }
EXPORT("f64.convert_i64_s") f64 f64_convert_i64_s(int64_t a) { return from64(magnitude_of(a), a < 0); }
EXPORT("f64.convert_i64_u") f64 f64_convert_i64_u(uint64_t a) { return from64(a, 0); }
EXPORT("f32.convert_i32_s") f32 f32_convert_i32_s(int32_t a) { return from32(magnitude_of(a), a < 0); }
EXPORT("f32.convert_i32_u") f32 f32_convert_i32_u(uint32_t a) { return from32(a, 0); }
EXPORT("f32.convert_i64_s") f32 f32_convert_i64_s(int64_t a) { return from32(magnitude_of(a), a < 0); }
EXPORT("f32.convert_i64_u") f32 f32_convert_i64_u(uint64_t a) { return from32(a, 0); }

// ---- To integers

// What an integer type holds: its width, and whether it has a sign.
#define SIGNED 1
#define UNSIGNED 0

// The integer nearest to the number in a type's range. `fits` is 0 for a NaN, which gives 0, and for what is out of range.
static inline uint64_t clamped(int is_nan, int is_infinite, int is_zero, struct number n, int width, int is_signed, int *fits) {
  *fits = 1;
  if (is_zero) return 0;
  if (is_nan) {
    *fits = 0;
    return 0;
  }
  if (!is_infinite && n.exponent < 0) return 0;
  uint64_t most = is_signed ? (UINT64_C(1) << (width - 1)) - 1 : UINT64_MAX >> (64 - width);
  uint64_t least = is_signed ? most + 1 : 0; // the magnitude of the least integer
  uint64_t limit = n.sign ? least : most;
  uint64_t magnitude = is_infinite || n.exponent > 63 ? UINT64_MAX : n.significand >> (63 - n.exponent);
  if (is_infinite || n.exponent > 63 || magnitude > limit) {
    *fits = 0;
    magnitude = limit;
  }
  return n.sign ? -magnitude : magnitude;
}

static inline uint64_t clamped64(f64 a, int width, int is_signed, int *fits) {
  f64 x = a & ~SIGN64;
  struct number n = {0, 0, (uint32_t)(a >> 63)};
  if (x != 0 && x < INFINITY64) n = unpack64(a);
  return clamped(x > INFINITY64, x == INFINITY64, x == 0, n, width, is_signed, fits);
}

static inline uint64_t clamped32(f32 a, int width, int is_signed, int *fits) {
  f32 x = a & ~SIGN32;
  struct number n = {0, 0, a >> 31};
  if (x != 0 && x < INFINITY32) n = unpack32(a);
  return clamped(x > INFINITY32, x == INFINITY32, x == 0, n, width, is_signed, fits);
}

// An instruction that traps if the integer does not fit, and the one that saturates.
#define TRUNCATIONS(integer_name, integer_type, float_name, width, is_signed, suffix)                                              \
  EXPORT(#integer_name ".trunc_" #float_name "_" suffix)                                                                           \
  integer_type integer_name##_trunc_##float_name##_##is_signed(float_name a) {                                                     \
    int fits;                                                                                                                      \
    uint64_t found = clamped_##float_name(a, width, is_signed, &fits);                                                             \
    if (!fits) __builtin_trap();                                                                                                   \
    return (integer_type)found;                                                                                                    \
  }                                                                                                                                \
  EXPORT(#integer_name ".trunc_sat_" #float_name "_" suffix)                                                                       \
  integer_type integer_name##_trunc_sat_##float_name##_##is_signed(float_name a) {                                                 \
    int fits;                                                                                                                      \
    return (integer_type)clamped_##float_name(a, width, is_signed, &fits);                                                         \
  }

#define clamped_f64 clamped64
#define clamped_f32 clamped32

TRUNCATIONS(i32, uint32_t, f32, 32, SIGNED, "s")
TRUNCATIONS(i32, uint32_t, f32, 32, UNSIGNED, "u")
TRUNCATIONS(i32, uint32_t, f64, 32, SIGNED, "s")
TRUNCATIONS(i32, uint32_t, f64, 32, UNSIGNED, "u")
TRUNCATIONS(i64, uint64_t, f32, 64, SIGNED, "s")
TRUNCATIONS(i64, uint64_t, f32, 64, UNSIGNED, "u")
TRUNCATIONS(i64, uint64_t, f64, 64, SIGNED, "s")
TRUNCATIONS(i64, uint64_t, f64, 64, UNSIGNED, "u")
