/* Independent implementation, not proved: self-test of the conversions. Known results,
   then that the pair <m, r> of [a, b] has the smallest radius of all pairs of numbers
   that enclose [a, b]: on bounds drawn from binary32. selftest_format.c tries the same
   rule on all bounds of a small format. */
#include "check.h"

/* Whether [lo, hi] becomes <m, r>. */
static bool becomes(uint32_t lo, uint32_t hi, uint32_t m, uint32_t r)
{
    uint32_t x = UNTOUCHED, y = UNTOUCHED;
    return is(oracle_to_midrad(lo, hi, &x, &y), 0, 0, 0, 0) && x == m && y == r;
}

static void check_midrad(void)
{
    const uint32_t ulp = 0x34000000, half_ulp = 0x33800000;     /* of 1: 2^-23 and 2^-24 */
    CHECK(becomes(ONE - 1, ONE + 1, ONE, ulp));                 /* the upper bound is farther */
    CHECK(becomes((NEGATIVE | ONE) + 1, (NEGATIVE | ONE) - 1, NEGATIVE | ONE, ulp));   /* the lower one */
    CHECK(becomes(ONE, ONE + 1, ONE, ulp) && becomes(ONE + 1, ONE + 2, ONE + 2, ulp));      /* ties */
    CHECK(becomes(ONE - 1, ONE, ONE, half_ulp) && becomes(ONE - 2, ONE - 1, ONE - 2, half_ulp));
    CHECK(becomes(0, 1, 0, 1) && becomes(1, 2, 2, 1) && becomes(NEGATIVE | 1, 2, 0, 2));
    CHECK(becomes(NEGATIVE | 1, ONE, 0x3F000000, 0x3F000001));  /* 1/2 + 2^-149, rounded up */
    CHECK(becomes(NEGATIVE | ONE, 1, 0xBF000000, 0x3F000001));
    CHECK(becomes(MAX, MAX, MAX, 0) && becomes(NEGATIVE | MAX, MAX, 0, MAX));
    CHECK(becomes(MAX - 1, MAX, MAX - 1, 0x73800000) && becomes(NEGATIVE | MAX, MAX - 1, 0xF3000000, MAX));
    CHECK(becomes(0, NEGATIVE, 0, 0) && becomes(NEGATIVE | ONE, THREE, ONE, TWO));
}

static void check_bounds_of(void)
{
    uint32_t x, y;
    CHECK(is(oracle_to_bounds(0, MAX, &x, &y), 0, 0, 0, 0) && x == (NEGATIVE | MAX) && y == MAX);
    CHECK(is(oracle_to_bounds(ONE + 1, 0x34400000, &x, &y), 0, 0, 0, 0));
    CHECK(x == 0x3F7FFFFF && y == ONE + 3);
    CHECK(is(oracle_to_bounds(ONE, NEGATIVE, &x, &y), 0, 0, 0, 0) && x == ONE && y == ONE);
}

void check_conversions(void)
{
    uint32_t x = UNTOUCHED, y = UNTOUCHED;
    CHECK(is(oracle_to_midrad(ONE, INFINITY_PATTERN, &x, &y), 3, 0, 0, 0));
    CHECK(is(oracle_to_midrad(NAN_PATTERN, 0, &x, &y), 3, 0, 0, 0));
    CHECK(is(oracle_to_midrad(TWO, ONE, &x, &y), 4, 0, 0, 0));
    CHECK(is(oracle_to_bounds(ONE, NAN_PATTERN, &x, &y), 3, 0, 0, 0));
    CHECK(is(oracle_to_bounds(ONE, NEGATIVE | 1, &x, &y), 4, 0, 0, 0));
    CHECK(is(oracle_to_bounds(MAX, 1, &x, &y), 5, 0, 0, 0));
    CHECK(is(oracle_to_bounds(NEGATIVE | MAX, 1, &x, &y), 5, 0, 0, 0));
    CHECK(x == UNTOUCHED && y == UNTOUCHED);
    check_midrad();
    check_bounds_of();
}

/* ---- the smallest radius, on drawn bounds. A rank counts the numbers in rising order,
   zero has 0; that of a positive number is its pattern. */

#define BINADE 0x800000     /* numbers from a power of two to the next */

static uint32_t number_at(int64_t rank)
{
    return rank < 0 ? NEGATIVE | (uint32_t)-rank : (uint32_t)rank;
}

static int64_t within(int64_t rank)
{
    return rank > MAX ? MAX : rank < -(int64_t)MAX ? -(int64_t)MAX : rank;
}

static int64_t draw_below(int64_t limit)
{
    static uint64_t state = 1;
    state = state * 6364136223846793005u + 1442695040888963407u;
    return (int64_t)(state >> 32) % limit;
}

/* The ranks of two bounds. */
static void draw_bounds(int kind, int64_t *lo, int64_t *hi)
{
    int64_t a = draw_below(2 * (int64_t)MAX + 1) - MAX, b = draw_below(2 * (int64_t)MAX + 1) - MAX;
    switch (kind) {
    case 0: b = a + draw_below(16); break;                                  /* a few places apart */
    case 1: b = a + draw_below(BINADE); break;                              /* of one or two exponents */
    case 2: a %= 2 * BINADE; b %= 2 * BINADE; break;                        /* subnormal, or nearly so */
    case 3: b = MAX - draw_below(16); break;                                /* up to MAX */
    case 4: a -= a % BINADE; b = a + draw_below(4); a -= draw_below(4); break;  /* about a power of two */
    }
    *lo = within(a < b ? a : b);
    *hi = within(a < b ? b : a);
}

/* Whether a midpoint within two places of m encloses with the next smaller radius. */
static bool improved_nearby(uint32_t m, uint32_t r, uint32_t lo, uint32_t hi)
{
    int64_t rank = m & NEGATIVE ? -(int64_t)(m & ~NEGATIVE) : (int64_t)m;
    for (int places = -2; places <= 2; places++)
        if (r != 0 && oracle_encloses(number_at(within(rank + places)), r - 1, lo, hi))
            return true;
    return false;
}

/* The radius by another rule: the midpoint is rounded up, and the radius is its distance
   from the lower bound, rounded up. That encloses too. */
static uint32_t one_sided(uint32_t lo, uint32_t hi)
{
    uint32_t m = 0, r = 0;
    oracle_operate(MIDPOINT, UP, lo, hi, &m);
    oracle_operate(SUB, UP, m, lo, &r);
    return r;
}

/* Never refused, and no radius is smaller. By the other rule some are not the smallest: so
   the test tells the two apart. */
void check_smallest_radius(void)
{
    int wrong = 0, larger = 0;
    for (int i = 0; i < 24000; i++) {
        int64_t a, b;
        uint32_t m, r;
        draw_bounds(i % 6, &a, &b);
        uint32_t lo = number_at(a), hi = number_at(b);
        if (oracle_to_midrad(lo, hi, &m, &r).number != 0 || !oracle_encloses(m, r, lo, hi)
            || !oracle_smallest_radius(r, lo, hi) || improved_nearby(m, r, lo, hi))
            wrong++;
        larger += !oracle_smallest_radius(one_sided(lo, hi), lo, hi);
    }
    CHECK(wrong == 0);
    CHECK(larger > 1000);
}
