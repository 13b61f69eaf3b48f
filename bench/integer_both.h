/* Benchmarks, not proved: an exact product of plain_number.h rounded down and up, worked
   out once. In a header, so that the compiler can inline it. */
#ifndef INTEGER_BOTH_H
#define INTEGER_BOTH_H

#include "plain_number.h"

struct both {
    uint32_t down, up;
};

static inline struct both rounded_both(struct number x)
{
    if (x.sig == 0)
        return (struct both){0, 0};
    struct cut c = cut(x, 0);
    uint32_t near = c.magnitude, far = near + (c.lost != 0);
    return (struct both){packed(x.negative, x.negative ? far : near, DOWN), packed(x.negative, x.negative ? near : far, UP)};
}

#endif
