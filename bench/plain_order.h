/* Benchmarks, not proved: the order of patterns by their values, in plain C. */
#ifndef PLAIN_ORDER_H
#define PLAIN_ORDER_H

#include "plain_number.h"

/* An integer that rises with the value of the pattern, 0 for both zeros. */
static inline int32_t order(uint32_t p)
{
    return p & SIGN ? -(int32_t)(p & ~SIGN) : (int32_t)p;
}

static inline uint32_t least(uint32_t p, uint32_t q)
{
    return order(p) <= order(q) ? p : q;
}

static inline uint32_t greatest(uint32_t p, uint32_t q)
{
    return order(p) <= order(q) ? q : p;
}

#endif
