/* Independent implementation, not proved: the conversions between the two
   representations of an interval, and the checks of cells and sizes. */
#include "parts.h"

struct refusal refuse(uint32_t number, uint32_t matrix, size_t row, size_t column)
{
    struct refusal refusal = {number, matrix, (uint32_t)row, (uint32_t)column};
    return refusal;
}

bool size_in_range(size_t size)
{
    return size >= 1 && size <= MAX_SIZE;
}

uint32_t check_bounds(uint32_t lo, uint32_t hi)
{
    if (!is_finite(lo) || !is_finite(hi))
        return 3;
    if (value_of(lo) > value_of(hi))
        return 4;
    return 0;
}

/* m is (lo + hi)/2 to nearest, r is the larger of m - lo and hi - m, rounded up. Here both
   are rounded up before the larger one is taken, which gives the same: rounding up keeps
   the order. */
struct refusal oracle_to_midrad(uint32_t lo, uint32_t hi,
                                uint32_t *m, uint32_t *r)
{
    uint32_t number = check_bounds(lo, hi);
    if (number != 0)
        return refuse(number, 0, 0, 0);
    uint32_t midpoint, to_lo, to_hi;
    number = oracle_operate(MIDPOINT, NEAR, lo, hi, &midpoint);
    if (number == 0)
        number = oracle_operate(SUB, UP, midpoint, lo, &to_lo);
    if (number == 0)
        number = oracle_operate(SUB, UP, hi, midpoint, &to_hi);
    if (number != 0)
        return refuse(number, 0, 0, 0);
    *m = midpoint;
    *r = value_of(to_lo) > value_of(to_hi) ? to_lo : to_hi;
    return ACCEPTED;
}

/* lo is m - r rounded down, hi is m + r rounded up. */
struct refusal oracle_to_bounds(uint32_t m, uint32_t r,
                                uint32_t *lo, uint32_t *hi)
{
    if (!is_finite(m) || !is_finite(r))
        return refuse(3, 0, 0, 0);
    if (value_of(r) < 0)
        return refuse(4, 0, 0, 0);
    uint32_t lower, upper;
    uint32_t number = oracle_operate(SUB, DOWN, m, r, &lower);
    if (number == 0)
        number = oracle_operate(ADD, UP, m, r, &upper);
    if (number != 0)
        return refuse(number, 0, 0, 0);
    *lo = lower;
    *hi = upper;
    return ACCEPTED;
}
