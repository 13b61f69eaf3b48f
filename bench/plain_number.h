/* Benchmarks, not proved: the operations in plain C, by the library's algorithm, but
   with sign and magnitude in place of a signed significand. The exact result, or a
   value with the same roundings, is rounded once. No branch depends on a sign, since
   signs are hard to predict. In a header, so that the compiler can inline them. */
#ifndef PLAIN_NUMBER_H
#define PLAIN_NUMBER_H

#include <stdbool.h>
#include <stdint.h>

#include "coupling.h"

#define SIGN       0x80000000u
#define NOT_FINITE (COUPLING_INFINITY + COUPLING_NOT_FINITE)
#define OVERFLOW   (COUPLING_INFINITY + COUPLING_OVERFLOW)

enum direction { DOWN, UP, NEAR };

/* sig * 2^exp units of 2^-149. */
struct number {
    bool negative;
    uint64_t sig;
    uint32_t exp;
};

static inline bool is_finite(uint32_t p)
{
    return (p & 0x7FFFFFFF) < COUPLING_INFINITY;
}

static inline struct number decode(uint32_t p)
{
    uint32_t field = p >> 23 & 0xFF, fraction = p & 0x7FFFFF;
    bool negative = p >> 31;
    if (field == 0)
        return (struct number){negative, fraction, 0};
    return (struct number){negative, fraction + 0x800000, field - 1};
}

static inline struct number product(struct number x, struct number y)
{
    return (struct number){x.negative != y.negative, x.sig * y.sig, x.exp + y.exp};
}

/* m, or -m: all bits inverted, plus 1. */
static inline int64_t with_sign(bool negative, int64_t m)
{
    int64_t ones = -(int64_t)negative;
    return (m ^ ones) - ones;
}

static inline int64_t shifted(struct number x, uint32_t n)
{
    return with_sign(x.negative, (int64_t)(x.sig << n));
}

/* x + y. Where the exponents differ by more than 36, the smaller summand is replaced
   by a sticky bit 36 places below the other one: all roundings are the same. */
static inline struct number sum(struct number x, struct number y)
{
    uint32_t low = x.exp < y.exp ? x.exp : y.exp;
    uint32_t high = x.exp < y.exp ? y.exp : x.exp;
    if (high - low > 36) {
        struct number *smaller = x.exp < y.exp ? &x : &y;
        low = high - 36;
        smaller->sig = smaller->sig != 0;
        smaller->exp = low;
    }
    int64_t total = shifted(x, x.exp - low) + shifted(y, y.exp - low);
    bool negative = total < 0;
    return (struct number){negative, (uint64_t)with_sign(negative, total), low};
}

/* For rounding down and up: whether a value is rounded away from zero. */
static inline bool away(bool negative, enum direction direction)
{
    return negative == (direction == DOWN);
}

/* The pattern of a magnitude rounded toward zero, and the bits lost by it: `lost` is
   in 2^-places of the last bit kept. */
struct cut {
    uint32_t magnitude, places;
    uint64_t lost;
};

/* x * 2^(lift - 149) units, not 0, rounded toward zero to 24 bits, or to whole units
   where that is less. x has at most 61 bits and is first shifted up to 61; then n
   bits are dropped, at most 62. 173 = 149 + 24 is the exponent of 2^24 units, and
   210 = 149 + 61 that of 2^61 units. */
static inline struct cut cut(struct number x, uint32_t lift)
{
    uint32_t zeros = (uint32_t)__builtin_clzll(x.sig);
    uint32_t top = 64 - zeros + x.exp + lift;
    uint32_t kept = top < 173 ? top : 173;
    uint32_t n = 210 - kept < 62 ? 210 - kept : 62;
    uint64_t w = x.sig << (zeros - 3), c = w >> n;
    return (struct cut){(top - kept) * 0x800000 + (uint32_t)c, n, w - (c << n)};
}

/* The pattern with its sign. A magnitude that is too large is refused with 5, or
   becomes the largest number where the direction is toward zero. */
static inline uint32_t packed(bool negative, uint32_t magnitude, enum direction direction)
{
    uint32_t sign = (uint32_t)negative << 31;
    if (magnitude == 0)
        return 0;
    if (magnitude < COUPLING_INFINITY)
        return sign | magnitude;
    return direction == NEAR || away(negative, direction) ? OVERFLOW : sign | COUPLING_LARGEST;
}

/* The pattern of x * 2^(lift - 149) units, rounded. */
static inline uint32_t rounded(struct number x, uint32_t lift, enum direction direction)
{
    if (x.sig == 0)
        return 0;
    struct cut c = cut(x, lift);
    if (direction == NEAR)
        c.magnitude += (UINT64_C(1) << c.places) < 2 * c.lost + c.magnitude % 2;
    else
        c.magnitude += (c.lost != 0) & away(x.negative, direction);
    return packed(x.negative, c.magnitude, direction);
}

static inline uint32_t add(uint32_t a, uint32_t b, uint32_t lift, enum direction direction)
{
    if (!is_finite(a) || !is_finite(b))
        return NOT_FINITE;
    return rounded(sum(decode(a), decode(b)), lift, direction);
}

static inline uint32_t mul(uint32_t a, uint32_t b, enum direction direction)
{
    if (!is_finite(a) || !is_finite(b))
        return NOT_FINITE;
    return rounded(product(decode(a), decode(b)), 0, direction);
}

static inline uint32_t add_down(uint32_t a, uint32_t b) { return add(a, b, 149, DOWN); }
static inline uint32_t add_up(uint32_t a, uint32_t b) { return add(a, b, 149, UP); }
static inline uint32_t add_near(uint32_t a, uint32_t b) { return add(a, b, 149, NEAR); }

static inline uint32_t sub_down(uint32_t a, uint32_t b) { return add(a, b ^ SIGN, 149, DOWN); }
static inline uint32_t sub_up(uint32_t a, uint32_t b) { return add(a, b ^ SIGN, 149, UP); }
static inline uint32_t sub_near(uint32_t a, uint32_t b) { return add(a, b ^ SIGN, 149, NEAR); }

static inline uint32_t mul_down(uint32_t a, uint32_t b) { return mul(a, b, DOWN); }
static inline uint32_t mul_up(uint32_t a, uint32_t b) { return mul(a, b, UP); }
static inline uint32_t mul_near(uint32_t a, uint32_t b) { return mul(a, b, NEAR); }

static inline uint32_t midpoint_down(uint32_t a, uint32_t b) { return add(a, b, 148, DOWN); }
static inline uint32_t midpoint_up(uint32_t a, uint32_t b) { return add(a, b, 148, UP); }
static inline uint32_t midpoint_near(uint32_t a, uint32_t b) { return add(a, b, 148, NEAR); }

#endif
