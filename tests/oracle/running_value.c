/* Independent implementation, not proved: one call of the running entry on the words of any
   value, also of one that was not made by such calls. */
#include <string.h>

#include "parts.h"

/* The words of a value: both sums, the number of pairs, and from AMOUNTS on the amounts. */
enum { LOWER, UPPER, COUNT, AMOUNTS };

/* Both cells as they are widened. Returns 0, or 10, 3, 4 or 5 of the first cell, then of the
   second. An amount below zero moves the bounds inward; 4 where they have passed each other
   then, after the checks of both cells. */
static uint32_t gauge_pair(const uint32_t *amounts, struct gauged a, struct gauged b, struct pair *pair)
{
    uint32_t number = oracle_gauge(amounts, a, &pair->a_lo, &pair->a_hi);
    if (number == 0)
        number = oracle_gauge(amounts, b, &pair->b_lo, &pair->b_hi);
    if (number == 0)
        number = check_bounds(pair->a_lo, pair->a_hi);
    if (number == 0)
        number = check_bounds(pair->b_lo, pair->b_hi);
    return number;
}

/* A step of the classical method from the sums in the value, which may be crossed. Returns 0,
   or 3 where one of them is no number, or 5. */
static uint32_t add_to_sums(uint32_t *value, const struct pair *pair)
{
    struct entry sums = {value[LOWER], value[UPPER], false};
    if (!is_finite(sums.lo) || !is_finite(sums.hi))
        return 3;
    add_classical(&sums, pair);
    if (sums.refused)
        return 5;
    value[LOWER] = sums.lo;
    value[UPPER] = sums.hi;
    value[COUNT]++;
    return 0;
}

uint32_t oracle_value_start(uint32_t *value, size_t len)
{
    if (len < RUNNING_WORDS)
        return 2000000;
    memset(value, 0, AMOUNTS * sizeof *value);
    memcpy(value + AMOUNTS, fixed_amounts, sizeof fixed_amounts);
    return 0;
}

uint32_t oracle_value_take(uint32_t *value, size_t len, struct gauged a, struct gauged b)
{
    struct pair pair = {0};
    if (len < RUNNING_WORDS)
        return 2000000;
    if (value[COUNT] >= MAX_SIZE)
        return 1000000;
    uint32_t number = gauge_pair(value + AMOUNTS, a, b, &pair);
    if (number == 0)
        number = add_to_sums(value, &pair);
    return 1000000 * number;
}

uint32_t oracle_value_amounts(uint32_t *value, size_t len, const uint8_t *load, size_t load_len)
{
    return len < RUNNING_WORDS ? 2000000 : 1000000 * load_amounts(load, load_len, value + AMOUNTS);
}
