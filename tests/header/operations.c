/* Tests of the C functions, not proved: the twelve operations and the two
   conversions, with each refusal that they can give, and guards around the words
   that a conversion writes. */
#include "check.h"

#define NEXT (ONE + 1)         /* 1 + 2^-23 */
#define TINY 0x33800000u       /* 2^-24 */
#define PREVIOUS 0x3F7FFFFFu   /* 1 - 2^-24 */
#define ULP 0x34000000u        /* 2^-23 */
#define LARGEST COUPLING_LARGEST
#define REFUSED(number) (COUPLING_INFINITY + (number))

/* ---- the operations */

static const struct {
    uint32_t (*down)(uint32_t, uint32_t), (*up)(uint32_t, uint32_t), (*near)(uint32_t, uint32_t);
} operations[] = {
    {coupling_add_down, coupling_add_up, coupling_add_near},
    {coupling_sub_down, coupling_sub_up, coupling_sub_near},
    {coupling_mul_down, coupling_mul_up, coupling_mul_near},
    {coupling_midpoint_down, coupling_midpoint_up, coupling_midpoint_near},
};

enum { ADD, SUB, MUL, MIDPOINT };

static const struct {
    int operation;
    uint32_t a, b, down, up, near;
} cases[] = {
    {ADD, ONE, TINY, ONE, NEXT, ONE},
    {ADD, LARGEST, LARGEST, LARGEST, REFUSED(5), REFUSED(5)},
    {ADD, MINUS | LARGEST, MINUS | LARGEST, REFUSED(5), MINUS | LARGEST, REFUSED(5)},
    {ADD, ONE, MINUS | ONE, 0, 0, 0},
    {SUB, ONE, MINUS | TINY, ONE, NEXT, ONE},
    {SUB, LARGEST, MINUS | LARGEST, LARGEST, REFUSED(5), REFUSED(5)},
    {SUB, MINUS | LARGEST, LARGEST, REFUSED(5), MINUS | LARGEST, REFUSED(5)},
    {MUL, NEXT, NEXT, ONE + 2, ONE + 3, ONE + 2},
    {MUL, MINUS | NEXT, NEXT, MINUS | (ONE + 3), MINUS | (ONE + 2), MINUS | (ONE + 2)},
    {MUL, 1, 1, 0, 1, 0},
    {MUL, MINUS, ONE, 0, 0, 0},
    {MUL, LARGEST, TWO, LARGEST, REFUSED(5), REFUSED(5)},
    {MUL, LARGEST, MINUS | TWO, REFUSED(5), MINUS | LARGEST, REFUSED(5)},
    {MIDPOINT, ONE, NEXT, ONE, NEXT, ONE},
    {MIDPOINT, LARGEST, LARGEST, LARGEST, LARGEST, LARGEST},
    {MIDPOINT, THREE, ONE, TWO, TWO, TWO},
};

void test_operations(void)
{
    const uint32_t not_finite[] = {COUPLING_INFINITY, MINUS | COUPLING_INFINITY, COUPLING_INFINITY + 1, 0xFFFFFFFF};
    for (size_t i = 0; i < COUNT(cases); i++) {
        uint32_t a = cases[i].a, b = cases[i].b;
        int o = cases[i].operation;
        CHECK(operations[o].down(a, b) == cases[i].down);
        CHECK(operations[o].up(a, b) == cases[i].up);
        CHECK(operations[o].near(a, b) == cases[i].near);
    }
    for (size_t i = 0; i < COUNT(operations) * COUNT(not_finite); i++) {
        size_t o = i / COUNT(not_finite);
        uint32_t x = not_finite[i % COUNT(not_finite)];
        CHECK(operations[o].down(x, ONE) == REFUSED(3) && operations[o].down(LARGEST, x) == REFUSED(3));
        CHECK(operations[o].up(x, LARGEST) == REFUSED(3) && operations[o].up(ONE, x) == REFUSED(3));
        CHECK(operations[o].near(x, x) == REFUSED(3) && operations[o].near(0, x) == REFUSED(3));
    }
}

/* ---- the conversions: guards stand around the two words, which a refusal leaves */

typedef uint32_t conversion(uint32_t, uint32_t, uint32_t *, uint32_t *);

static int converts(conversion *call, uint32_t a, uint32_t b, uint32_t first, uint32_t second)
{
    uint32_t words[5] = {GUARD, GUARD, GUARD, GUARD, GUARD};
    CHECK(call(a, b, &words[1], &words[3]) == 0);
    CHECK(words[0] == GUARD && words[2] == GUARD && words[4] == GUARD);
    return words[1] == first && words[3] == second;
}

static int refuses(conversion *call, uint32_t a, uint32_t b, uint32_t number)
{
    uint32_t words[5] = {GUARD, GUARD, GUARD, GUARD, GUARD};
    return call(a, b, &words[1], &words[3]) == refusal(number, 0, 0, 0) && untouched(words, 5);
}

/* Bounds to midpoint and radius: of the two distances from the midpoint the larger one
   counts, be it that of the upper bound or of the lower one. */
static void test_midrad(void)
{
    conversion *midrad = coupling_to_midrad;
    CHECK(converts(midrad, PREVIOUS, NEXT, ONE, ULP));
    CHECK(converts(midrad, MINUS | NEXT, MINUS | PREVIOUS, MINUS | ONE, ULP));
    CHECK(converts(midrad, ONE, NEXT, ONE, ULP) && converts(midrad, NEXT, NEXT + 1, NEXT + 1, ULP)); /* ties */
    CHECK(converts(midrad, 0, 1, 0, 1) && converts(midrad, 1, 2, 2, 1));
    CHECK(converts(midrad, MINUS | 1, ONE, HALF, HALF + 1)); /* 1/2 + 2^-149, rounded up */
    CHECK(converts(midrad, MINUS | ONE, 1, MINUS | HALF, HALF + 1));
    CHECK(converts(midrad, LARGEST, LARGEST, LARGEST, 0) && converts(midrad, MINUS | LARGEST, LARGEST, 0, LARGEST));
    CHECK(converts(midrad, MINUS, 0, 0, 0) && converts(midrad, 0, MINUS, 0, 0));
    CHECK(refuses(midrad, COUPLING_INFINITY, ONE, 3) && refuses(midrad, ONE, COUPLING_INFINITY, 3));
    CHECK(refuses(midrad, TWO, ONE, 4) && refuses(midrad, TWO, MINUS | COUPLING_INFINITY, 3));
}

static void test_bounds(void)
{
    conversion *bounds = coupling_to_bounds;
    CHECK(converts(bounds, ONE, TWO, MINUS | ONE, THREE) && converts(bounds, ONE, MINUS, ONE, ONE));
    CHECK(converts(bounds, ONE, 1, PREVIOUS, NEXT));
    CHECK(refuses(bounds, COUPLING_INFINITY, ONE, 3) && refuses(bounds, ONE, COUPLING_INFINITY, 3));
    CHECK(refuses(bounds, ONE, MINUS | ONE, 4));
    CHECK(refuses(bounds, LARGEST, LARGEST, 5) && refuses(bounds, MINUS | LARGEST, LARGEST, 5));
}

/* An integer that rises with the value of a pattern. */
static int64_t rank(uint32_t pattern)
{
    return pattern & MINUS ? -(int64_t)(pattern & ~MINUS) : (int64_t)pattern;
}

/* There and back: the bounds that come back enclose those that were given, or are too
   large, as those of [-MAX, 1]: midpoint -MAX/2, radius 2^127. */
static void test_there_and_back(void)
{
    uint32_t mid, rad, lower, upper;
    const uint32_t ranges[][2] = {
        {PREVIOUS, NEXT}, {MINUS | NEXT, MINUS | PREVIOUS}, {ONE, NEXT}, {1, ONE}, {MINUS | 1, TINY},
        {MINUS | THREE, ULP}, {LARGEST - 1, LARGEST}, {1, LARGEST}, {MINUS | LARGEST, LARGEST}, {TWO, TWO},
    };
    for (size_t i = 0; i < COUNT(ranges); i++) {
        CHECK(coupling_to_midrad(ranges[i][0], ranges[i][1], &mid, &rad) == 0);
        CHECK(coupling_to_bounds(mid, rad, &lower, &upper) == 0);
        CHECK(rank(lower) <= rank(ranges[i][0]) && rank(ranges[i][1]) <= rank(upper));
    }
    CHECK(coupling_to_midrad(MINUS | LARGEST, ONE, &mid, &rad) == 0);
    CHECK(mid == (MINUS | (LARGEST - 0x800000)) && rad == 0x7F000000 && refuses(coupling_to_bounds, mid, rad, 5));
}

void test_conversions(void)
{
    test_midrad();
    test_bounds();
    test_there_and_back();
}
