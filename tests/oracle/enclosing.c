/* Independent implementation, not proved: whether a midpoint and a radius enclose given
   bounds, and whether a radius is the smallest with which one can. Neither is used by the
   conversions; the tests hold the conversions to them. */
#include "parts.h"

/* lo is a number, so m - r is at most lo exactly where m - r rounded up is; likewise for
   hi. A refusal means that m - r is above MAX, or m + r below -MAX. */
bool oracle_encloses(uint32_t m, uint32_t r, uint32_t lo, uint32_t hi)
{
    uint32_t left, right;
    return oracle_operate(SUB, UP, m, r, &left) == 0 && value_of(left) <= value_of(lo)
        && oracle_operate(ADD, DOWN, m, r, &right) == 0 && value_of(right) >= value_of(hi);
}

/* Let s be the greatest number below r. A midpoint encloses with the radius s if it is at
   least hi - s and at most lo + s. The least number of the first kind is hi - s rounded
   up, the greatest of the second kind lo + s rounded down: if these two are in the wrong
   order, no number is of both kinds. With a radius below s even fewer numbers are. */
bool oracle_smallest_radius(uint32_t r, uint32_t lo, uint32_t hi)
{
    if (r == 0)
        return true;
    uint32_t s = r - 1, least, greatest;
    return oracle_operate(SUB, UP, hi, s, &least) == 0
        && oracle_operate(ADD, DOWN, lo, s, &greatest) == 0
        && value_of(least) > value_of(greatest);
}
