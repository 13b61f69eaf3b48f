/* Independent implementation, not proved: one entry of a product by each of the five
   methods, from its k pairs of cells. Method 1 is here; those that use midpoints and
   radii are in methods_midrad.c (3, 4 and 7) and method_five.c.

   Every operation is rounded separately, and sums start at 0. A refused step marks the
   entry as refused; the results of later steps are then not used. */
#include "parts.h"

uint32_t step(bool *refused, enum operation operation, enum direction direction, uint32_t a, uint32_t b)
{
    uint32_t result = 0;
    if (oracle_operate(operation, direction, a, b, &result) != 0)
        *refused = true;
    return result;
}

uint32_t lesser(uint32_t a, uint32_t b)
{
    return value_of(b) < value_of(a) ? b : a;
}

static uint32_t greater(uint32_t a, uint32_t b)
{
    return value_of(b) > value_of(a) ? b : a;
}

/* Each of the four corner products is rounded down and up. */
void add_classical(struct entry *sums, const struct pair *pair)
{
    const uint32_t a[4] = {pair->a_lo, pair->a_lo, pair->a_hi, pair->a_hi};
    const uint32_t b[4] = {pair->b_lo, pair->b_hi, pair->b_lo, pair->b_hi};
    uint32_t least = step(&sums->refused, MUL, DOWN, a[0], b[0]);
    uint32_t greatest = step(&sums->refused, MUL, UP, a[0], b[0]);
    for (int corner = 1; corner < 4; corner++) {
        least = lesser(least, step(&sums->refused, MUL, DOWN, a[corner], b[corner]));
        greatest = greater(greatest, step(&sums->refused, MUL, UP, a[corner], b[corner]));
    }
    sums->lo = step(&sums->refused, ADD, DOWN, sums->lo, least);
    sums->hi = step(&sums->refused, ADD, UP, sums->hi, greatest);
}

/* Method 1. */
static struct entry classical(const struct pair *pairs, size_t k)
{
    struct entry e = {0, 0, false};
    for (size_t l = 0; l < k; l++)
        add_classical(&e, &pairs[l]);
    return e;
}

bool method_known(uint32_t method)
{
    return method == 1 || method == 3 || method == 4 || method == 5 || method == 7;
}

struct entry entry_by_method(uint32_t method, const struct pair *pairs, size_t k)
{
    switch (method) {
    case 1:  return classical(pairs, k);
    case 3:  return three_products(pairs, k);
    case 4:  return four_products(pairs, k);
    case 5:  return five_products(pairs, k);
    default: return seven_products(pairs, k);
    }
}
