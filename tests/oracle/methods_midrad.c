/* Independent implementation, not proved: one entry of a product by methods 4, 7 and 3,
   from midpoints and radii; method 5, which shares some of the steps, is in
   method_five.c. */
#include <string.h>

#include "parts.h"

#define TWO_TO_MINUS_125 0x01000000u

uint32_t add_product(bool *refused, enum direction direction,
                     uint32_t sum, uint32_t a, uint32_t b)
{
    uint32_t product = step(refused, MUL, direction, a, b);
    return step(refused, ADD, direction, sum, product);
}

/* sum continued with rA * (|mB| + rB) over l, all up. */
static uint32_t continue_with_radii_of_a(bool *refused, uint32_t sum,
                                         const struct pair *pairs, size_t k)
{
    for (size_t l = 0; l < k; l++) {
        uint32_t b = step(refused, ADD, UP, magnitude(pairs[l].m_b), pairs[l].r_b);
        sum = add_product(refused, UP, sum, pairs[l].r_a, b);
    }
    return sum;
}

/* The radius of method 4, and of method 7 before its last sum: the sum of |mA| * rB,
   continued with rA * (|mB| + rB). */
static uint32_t radius(bool *refused, const struct pair *pairs, size_t k)
{
    uint32_t sum = 0;
    for (size_t l = 0; l < k; l++)
        sum = add_product(refused, UP, sum, magnitude(pairs[l].m_a), pairs[l].r_b);
    return continue_with_radii_of_a(refused, sum, pairs, k);
}

/* The sum of mA * mB over l, products and sums rounded in the same direction. */
static uint32_t centre(bool *refused, enum direction direction,
                       const struct pair *pairs, size_t k)
{
    uint32_t sum = 0;
    for (size_t l = 0; l < k; l++)
        sum = add_product(refused, direction, sum, pairs[l].m_a, pairs[l].m_b);
    return sum;
}

/* Method 4. */
struct entry four_products(const struct pair *pairs, size_t k)
{
    struct entry e = {0, 0, false};
    uint32_t r = radius(&e.refused, pairs, k);
    e.hi = step(&e.refused, ADD, UP, centre(&e.refused, UP, pairs, k), r);
    e.lo = step(&e.refused, SUB, DOWN, centre(&e.refused, DOWN, pairs, k), r);
    return e;
}

uint32_t part(uint32_t m, uint32_t r)
{
    uint32_t least = lesser(magnitude(m), r);
    return value_of(m) < 0 ? least | SIGN_BIT : least;
}

uint32_t centre_with_parts(bool *refused, enum direction direction,
                           const struct pair *pairs, size_t k)
{
    uint32_t sum = centre(refused, direction, pairs, k);
    for (size_t l = 0; l < k; l++)
        sum = add_product(refused, direction, sum,
                          part(pairs[l].m_a, pairs[l].r_a),
                          part(pairs[l].m_b, pairs[l].r_b));
    return sum;
}

/* Method 7: the radius of method 4, continued with -|pA| * |pB|. */
struct entry seven_products(const struct pair *pairs, size_t k)
{
    struct entry e = {0, 0, false};
    uint32_t r = radius(&e.refused, pairs, k);
    for (size_t l = 0; l < k; l++) {
        uint32_t p_a = magnitude(part(pairs[l].m_a, pairs[l].r_a));
        uint32_t p_b = magnitude(part(pairs[l].m_b, pairs[l].r_b));
        r = add_product(&e.refused, UP, r, p_a | SIGN_BIT, p_b);
    }
    e.hi = step(&e.refused, ADD, UP, centre_with_parts(&e.refused, UP, pairs, k), r);
    e.lo = step(&e.refused, SUB, DOWN, centre_with_parts(&e.refused, DOWN, pairs, k), r);
    return e;
}

/* (k + 2) * 2^-24, exact for every k up to 32. */
static uint32_t error_factor(size_t k)
{
    float value = (float)(k + 2) * 0x1p-24f;
    uint32_t pattern;
    memcpy(&pattern, &value, sizeof pattern);
    return pattern;
}

/* Method 3. */
struct entry three_products(const struct pair *pairs, size_t k)
{
    struct entry e = {0, 0, false};
    uint32_t c = centre(&e.refused, NEAR, pairs, k);
    uint32_t r = 0;
    for (size_t l = 0; l < k; l++) {
        uint32_t error = step(&e.refused, MUL, UP, error_factor(k), magnitude(pairs[l].m_b));
        uint32_t r_b = step(&e.refused, ADD, UP, error, pairs[l].r_b);
        r = add_product(&e.refused, UP, r, magnitude(pairs[l].m_a), r_b);
    }
    r = step(&e.refused, ADD, UP, r, TWO_TO_MINUS_125);
    r = continue_with_radii_of_a(&e.refused, r, pairs, k);
    e.lo = step(&e.refused, SUB, DOWN, c, r);
    e.hi = step(&e.refused, ADD, UP, c, r);
    return e;
}
