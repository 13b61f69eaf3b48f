/* Independent implementation, not proved: one entry of a product by method 5, from
   midpoints and radii. */
#include <string.h>

#include "parts.h"

#define LARGEST 0x7F7FFFFFu
#define TWO 0x40000000u
#define TWO_TO_MINUS_126 0x00800000u

/* G: the sum of |mA| * |mB|, continued with |pA| * |pB|, to nearest. */
static uint32_t size_of_terms(bool *refused, const struct pair *pairs, size_t k)
{
    uint32_t sum = 0;
    for (size_t l = 0; l < k; l++)
        sum = add_product(refused, NEAR, sum, magnitude(pairs[l].m_a), magnitude(pairs[l].m_b));
    for (size_t l = 0; l < k; l++)
        sum = add_product(refused, NEAR, sum,
                          magnitude(part(pairs[l].m_a, pairs[l].r_a)),
                          magnitude(part(pairs[l].m_b, pairs[l].r_b)));
    return sum;
}

/* The distance from g >= 0 to the next larger number, whose pattern is the next one; from
   the largest number the distance to the number before it, 2^104. It is exact. */
static uint32_t spacing(bool *refused, uint32_t g)
{
    uint32_t next = g == LARGEST ? g : g + 1;
    return step(refused, SUB, UP, next, next - 1);
}

/* E: (k + 1) * spacing(G), then + 2^-126, up. */
static uint32_t error(bool *refused, uint32_t g, size_t k)
{
    float value = (float)(k + 1);
    uint32_t count;
    memcpy(&count, &value, sizeof count);
    uint32_t product = step(refused, MUL, UP, count, spacing(refused, g));
    return step(refused, ADD, UP, product, TWO_TO_MINUS_126);
}

/* R: the sum of (|mA| + rA) * (|mB| + rB), then - G, then + 2 * E, all up. */
static uint32_t radius(bool *refused, uint32_t g, const struct pair *pairs, size_t k)
{
    uint32_t sum = 0;
    for (size_t l = 0; l < k; l++) {
        uint32_t a = step(refused, ADD, UP, magnitude(pairs[l].m_a), pairs[l].r_a);
        uint32_t b = step(refused, ADD, UP, magnitude(pairs[l].m_b), pairs[l].r_b);
        sum = add_product(refused, UP, sum, a, b);
    }
    sum = step(refused, SUB, UP, sum, g);
    return step(refused, ADD, UP, sum, step(refused, MUL, UP, TWO, error(refused, g, k)));
}

struct entry five_products(const struct pair *pairs, size_t k)
{
    struct entry e = {0, 0, false};
    uint32_t c = centre_with_parts(&e.refused, NEAR, pairs, k);
    uint32_t g = size_of_terms(&e.refused, pairs, k);
    uint32_t r = radius(&e.refused, g, pairs, k);
    e.lo = step(&e.refused, SUB, DOWN, c, r);
    e.hi = step(&e.refused, ADD, UP, c, r);
    return e;
}
