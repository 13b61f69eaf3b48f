/* Benchmarks, not proved: what methods 3, 4, 5 and 7 derive from single cells, and
   method 5's E, in plain C over 64-bit integers. In a header, so that the compiler can
   inline it. */
#ifndef INTEGER_CELLS_H
#define INTEGER_CELLS_H

#include <stddef.h>

#include "plain_number.h"
#include "plain_order.h"

#define LEAST_NORMAL 0x00800000u /* 2^-126 */

/* Midpoints and radii of bounds. */
static inline void convert(size_t count, const uint32_t *lower, const uint32_t *upper, uint32_t *m, uint32_t *r)
{
    for (size_t c = 0; c < count; c++) {
        m[c] = midpoint_near(lower[c], upper[c]);
        r[c] = greatest(sub_up(m[c], lower[c]), sub_up(upper[c], m[c]));
    }
}

/* sign(m) * min(|m|, r) */
static inline uint32_t part(uint32_t m, uint32_t r)
{
    return (m & SIGN) | least(m & ~SIGN, r);
}

/* E: (k + 1) * spacing(G) + 2^-126. The spacing is the last bit of G, 2^exp units. */
static inline uint32_t error(size_t k, uint32_t size)
{
    struct number spacings = {false, k + 1, decode(size).exp};
    return add_up(rounded(spacings, 149, UP), LEAST_NORMAL);
}

#endif
