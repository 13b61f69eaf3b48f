/* Test drivers, not proved: random patterns of binary32. */
#include "numbers.h"

#include "draw.h"

const uint32_t edges[EDGES] = {
    0x00000000, 0x80000000,                         /* zeros */
    0x00000001, 0x80000001, 0x00000002, 0x00000003, 0x80000003, /* units */
    0x00400000, 0x007FFFFF, 0x807FFFFF,             /* subnormals */
    0x00800000, 0x80800000, 0x00800001,             /* smallest normal numbers */
    0x1A000000, 0x9A000001,                         /* 2^-75, whose square is half a unit */
    0x33000000, 0xB3000000, 0x33000001,             /* 2^-25: half an ulp below 1 */
    0x33800000, 0xB3800000, 0x337FFFFF, 0x33800001, /* 2^-24: half an ulp above 1 */
    0x34000000,                                     /* 2^-23: an ulp above 1 */
    0x3F000000, 0x3F7FFFFF, 0xBF7FFFFF,             /* one half, 1 - 2^-24 */
    0x3F800000, 0xBF800000, 0x3F800001, 0xBF800001, /* 1, 1 + 2^-23 */
    0x40000000, 0x5F800000, 0x5F7FFFFF,             /* 2, and 2^64, whose square is 2^128 */
    0x73000000, 0xF3000000, 0x72FFFFFF, 0x73000001, /* 2^103: half an ulp at MAX */
    0x73800000, 0xF3800000,                         /* 2^104: an ulp at MAX */
    0x7F000000, 0x7F7FFFFE, 0x7F7FFFFF, 0xFF7FFFFE, 0xFF7FFFFF, /* up to MAX */
    0x7F800000, 0xFF800000, 0x7FC00000, 0xFF800001, /* exponent field 255 */
};

uint32_t draw_fraction(void)
{
    uint32_t any = any_bits() & 0x7FFFFF;
    uint32_t low = 0x7FFFFFu >> from_to(0, 23);
    switch (from_to(0, 5)) {
    case 0:  return low;
    case 1:  return 0x7FFFFF - low;
    case 2:  return any & 0x600000;
    default: return any;
    }
}

uint32_t draw_sign(uint32_t magnitude)
{
    return one_in(2) ? magnitude | SIGN : magnitude;
}

uint32_t draw_number(int field, uint32_t fraction)
{
    int within = field < 0 ? 0 : field > 254 ? 254 : field;
    return draw_sign((uint32_t)within << 23 | fraction);
}

uint32_t draw_not_finite(void)
{
    uint32_t fraction = one_in(2) ? 0 : draw_fraction();
    return draw_sign(INFINITE | fraction);
}

uint32_t draw_pattern(void)
{
    uint32_t any = any_bits();
    switch (from_to(0, 3)) {
    case 0:  return edges[any % EDGES];
    case 1:  return draw_number(from_to(126, 141), any & 0x7FFFFF);
    case 2:  return draw_number(from_to(0, 1), any & 0x7FFFFF);
    default: return any;
    }
}

/* An integer that rises with the value of the pattern, 0 for both zeros. */
static int64_t rank(uint32_t pattern)
{
    return pattern & SIGN ? -(int64_t)(pattern & ~SIGN) : (int64_t)pattern;
}

void put_in_order(uint32_t *lower, uint32_t *upper)
{
    if (rank(*lower) <= rank(*upper))
        return;
    uint32_t first = *lower;
    *lower = *upper;
    *upper = first;
}
