/* Test drivers, not proved: random operands of an operation, of kinds that are hard to
   round correctly. */
#include "draw.h"
#include "numbers.h"

static void any_two(uint32_t *a, uint32_t *b)
{
    *a = any_bits();
    *b = any_bits();
}

static void subnormals(uint32_t *a, uint32_t *b)
{
    *a = draw_number(0, draw_fraction());
    int field = from_to(0, 2);
    *b = draw_number(field, draw_fraction());
}

/* One operand near MAX, the other near MAX or near half an ulp of MAX. */
static void near_max(uint32_t *a, uint32_t *b)
{
    int field = from_to(228, 232);
    *a = draw_number(254, (uint32_t)from_to(0x7FFFFC, 0x7FFFFF));
    *b = draw_number(field, (uint32_t)from_to(0, 2));
    if (one_in(2))
        *b = draw_number(254, draw_fraction());
}

/* b is half an ulp or a quarter of an ulp of a, or a neighbour of these. */
static void sum_ties(uint32_t *a, uint32_t *b)
{
    int field = from_to(26, 254);
    *a = draw_number(field, draw_fraction());
    *b = draw_number(field - from_to(24, 25), 0);
    *b += (uint32_t)from_to(0, 2) - 1;
}

/* Odd factors of 13 and 12 bits: their product often needs 25 bits. */
static void product_ties(uint32_t *a, uint32_t *b)
{
    int field_a = from_to(70, 180), field_b = from_to(70, 180);
    *a = draw_number(field_a, ((uint32_t)from_to(0, 0xFFF) | 1) << 11);
    *b = draw_number(field_b, ((uint32_t)from_to(0, 0x7FF) | 1) << 12);
}

static void far_exponents(uint32_t *a, uint32_t *b)
{
    int high = from_to(150, 254), low = from_to(0, 120);
    bool turned = one_in(2);
    *a = draw_number(turned ? low : high, draw_fraction());
    *b = draw_number(turned ? high : low, draw_fraction());
}

static void near_exponents(uint32_t *a, uint32_t *b)
{
    int field = from_to(0, 254), apart = from_to(-2, 2);
    *a = draw_number(field, draw_fraction());
    *b = draw_number(field + apart, draw_fraction());
}

/* Magnitudes at most 8 places apart, often beside a power of two; mostly of one sign. */
static void few_apart(uint32_t *a, uint32_t *b)
{
    int field = from_to(0, 254);
    uint32_t any = draw_fraction(), low = (uint32_t)from_to(0, 3);
    uint32_t less = draw_number(field, one_in(2) ? any : one_in(2) ? low : 0x7FFFFF - low);
    uint32_t more = (less & ~SIGN) + (uint32_t)from_to(0, 8);
    more = (more > MAX ? MAX : more) | (less & SIGN);
    if (one_in(4))
        more ^= SIGN;
    bool turned = one_in(2);
    *a = turned ? more : less;
    *b = turned ? less : more;
}

/* One operand of at most 8 units, the other of any size up to about 2. */
static void few_units(uint32_t *a, uint32_t *b)
{
    int field = from_to(-128, 128);
    *a = draw_number(0, (uint32_t)from_to(0, 8));
    *b = draw_number(field, (uint32_t)from_to(0, 8));
}

static void near_one(uint32_t *a, uint32_t *b)
{
    *a = draw_sign((uint32_t)from_to(0x3F7FFFF8, 0x3F800008));
    *b = draw_sign((uint32_t)from_to(0x3F7FFFF8, 0x3F800008));
}

/* The product is near a unit, near the smallest normal number or near MAX. */
static void product_edges(uint32_t *a, uint32_t *b)
{
    static const int sums[3] = {104, 127, 381};
    int sum = sums[from_to(0, 2)];
    sum += from_to(-3, 3);
    int field = sum > 254 ? from_to(sum - 254, 254) : from_to(0, sum);
    *a = draw_number(field, draw_fraction());
    *b = draw_number(sum - field, draw_fraction());
}

/* An infinity or a NaN beside any bits. */
static void field_255(uint32_t *a, uint32_t *b)
{
    uint32_t refused = draw_not_finite(), other = any_bits();
    bool turned = one_in(2);
    *a = turned ? other : refused;
    *b = turned ? refused : other;
}

static void (*const kinds[])(uint32_t *a, uint32_t *b) = {
    any_two, subnormals, near_max, sum_ties, product_ties, far_exponents,
    near_exponents, few_apart, few_units, near_one, product_edges, field_255,
};

/* Each of the first eleven kinds is twice as frequent as exponent field 255. */
void draw_pair(uint32_t *a, uint32_t *b)
{
    kinds[from_to(0, 22) / 2](a, b);
}
