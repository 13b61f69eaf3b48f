/* Benchmarks, not proved: draws random cells of each kind. Exponents differ little, so
   that products of these cells are far from overflow. */
#include "kinds.h"

#include <math.h>
#include <stdbool.h>

#include "bits.h"
#include "draw.h"

/* A number from 2^-5 to 2^6, of either sign. */
static uint32_t draw_middle(void)
{
    return draw_number(122, 132);
}

static struct cell ordered(uint32_t p, uint32_t q)
{
    return value_of(p) < value_of(q) ? (struct cell){p, q} : (struct cell){q, p};
}

static struct cell draw_point(void)
{
    uint32_t p = draw_middle();
    return (struct cell){p, p};
}

static struct cell draw_narrow(void)
{
    uint32_t p = draw_middle();
    return ordered(p, p + (uint32_t)(draw() % 64));
}

static struct cell draw_wide(void)
{
    uint32_t p = draw_number(126, 128);
    return ordered(p, draw_number(126, 128));
}

static struct cell draw_mixed(void)
{
    switch (draw() % 3) {
    case 0:
        return draw_point();
    case 1:
        return draw_narrow();
    default:
        return draw_wide();
    }
}

/* The pattern of x, rounded down or up to binary32. */
static uint32_t rounded(double x, bool up)
{
    float near = (float)x;
    if (up ? near < x : near > x)
        near = nextafterf(near, up ? INFINITY : -INFINITY);
    return pattern_of(near);
}

/* A value of two decimals less and plus a play in tenths of a percent. */
static struct cell draw_gauged(void)
{
    int value = 1 + (int)(draw() % 99), play = 1 + (int)(draw() % 20);
    bool negative = draw() % 2;
    double less = value * (1000 - play) / 1e5, more = value * (1000 + play) / 1e5;
    return (struct cell){rounded(negative ? -more : less, false), rounded(negative ? -less : more, true)};
}

/* From a little below to a little above a power of two. */
static struct cell draw_across(void)
{
    uint32_t power = draw_middle() & 0xFF800000;
    uint32_t p = power - (uint32_t)(draw() % 64);
    return ordered(p, power + (uint32_t)(draw() % 64));
}

const struct kind kinds[KINDS] = {
    {"points", "one number, 2^-5 to 2^6 in magnitude", draw_point},
    {"narrow", "the upper bound is 0 to 63 patterns above the lower one, 2^-5 to 2^6", draw_narrow},
    {"wide", "two independent bounds, 2^-1 to 2^2", draw_wide},
    {"mixed", "each cell is a point, narrow or wide", draw_mixed},
    {"gauged", "0.01 to 0.99, with a play of 0.1 to 2 percent to both sides", draw_gauged},
    {"across", "from 0 to 63 patterns below a power of two, 2^-5 to 2^5, to 0 to 63 above it", draw_across},
};
