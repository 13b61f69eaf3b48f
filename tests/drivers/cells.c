/* Test drivers, not proved: random cells for the matrices of a product. */
#include "cells.h"

#include "draw.h"
#include "numbers.h"
#include "oracle.h"

void draw_kinds(struct kind *a, struct kind *b)
{
    static const struct kind pairs[][2] = {
        {{122, 132}, {122, 132}},   /* of similar size */
        {{0, 1}, {0, 2}},           /* subnormal */
        {{0, 1}, {120, 150}},       /* subnormal times normal */
        {{252, 254}, {110, 128}},   /* near MAX times about 1 or less */
        {{0, 254}, {0, 254}},       /* any exponent */
        {{100, 154}, {100, 154}},   /* from 2^-27 to 2^28 */
        {{45, 58}, {45, 60}},       /* products about 2^-149 */
        {{186, 191}, {186, 190}},   /* products about 2^127 */
    };
    const struct kind *pair = pairs[from_to(0, 7)];
    bool turned = one_in(2);
    *a = pair[turned];
    *b = pair[!turned];
}

static uint32_t draw_bound(struct kind kind)
{
    int field = from_to(kind.least, kind.greatest);
    return draw_number(field, draw_fraction());
}

/* One to three steps above p in the order of values; at most MAX. */
static uint32_t a_little_above(uint32_t p)
{
    for (int steps = from_to(1, 3); steps > 0; steps--)
        if ((p & ~SIGN) == 0)
            p = 1;
        else if (p & SIGN)
            p--;
        else if (p < MAX)
            p++;
    return p;
}

void draw_cell(struct kind kind, uint32_t *lower, uint32_t *upper)
{
    *lower = draw_bound(kind);
    *upper = draw_bound(kind);
    switch (from_to(0, 7)) {
    case 0: case 1:
        *upper = *lower;                    /* a point */
        break;
    case 2: case 3:
        *upper = a_little_above(*lower);
        break;
    case 4:
        *upper = *lower ^ SIGN;             /* symmetric about zero */
        break;
    case 5:
        *upper = draw_sign(0);              /* one bound is a zero, of either sign */
        break;
    case 6:
        *lower = draw_sign(0);
        *upper = draw_sign(0);
        break;
    }
    put_in_order(lower, upper);
}

void draw_infinite(struct kind kind, uint32_t *lower, uint32_t *upper)
{
    draw_cell(kind, lower, upper);
    int which = from_to(0, 2);
    if (which != 1)
        *lower = draw_not_finite();
    if (which != 0)
        *upper = draw_not_finite();
}

/* Redraws points and cells with two zeros: their exchanged bounds are still in order. */
void draw_crossed(struct kind kind, uint32_t *lower, uint32_t *upper)
{
    do
        draw_cell(kind, upper, lower);
    while (*lower == *upper || ((*lower | *upper) & ~SIGN) == 0);
}

/* MAX less the amount, or a number next to it. */
bool draw_limit(uint32_t amount, uint32_t *lower, uint32_t *upper)
{
    uint32_t limit;
    int which = from_to(0, 2), step = from_to(-1, 1);
    if (oracle_operate(SUB, NEAR, MAX, amount, &limit) != 0)
        return false;
    if (step < 0 ? limit > 0 : limit < MAX)
        limit += (uint32_t)step;
    *lower = which == 0 ? 0 : SIGN | limit;
    *upper = which == 1 ? 0 : limit;
    return true;
}
