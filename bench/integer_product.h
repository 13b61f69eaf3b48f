/* The products in plain C over 64-bit integers, not proved: a peer of the benchmark.
   Numbers are patterns, and operations are those of plain_number.h. */
#ifndef INTEGER_PRODUCT_H
#define INTEGER_PRODUCT_H

#include "matrices.h"

/* Bounds of A, B and the result, and the midpoints and radii of A and B. */
struct patterns {
    uint32_t al[CELLS], au[CELLS], bl[CELLS], bu[CELLS];
    uint32_t ma[CELLS], ra[CELLS], mb[CELLS], rb[CELLS];
    uint32_t lo[CELLS], up[CELLS];
};

/* A (m by k) times B (k by n) by method 1, 3, 4, 5 or 7. Sizes up to 32 and valid
   cells are assumed and not checked. Returns whether all entries are finite. */
bool integer_product(int method, size_t m, size_t k, size_t n, struct patterns *p);

/* The same by method 1 only, with each exact corner product computed once. */
bool integer_classical(size_t m, size_t k, size_t n, struct patterns *p);

/* The same by method 5 only, with each product to nearest computed once, for C and G. */
bool integer_nearest(size_t m, size_t k, size_t n, struct patterns *p);

/* By method 1 or 5 as the two above; false by any other. */
static inline bool integer_once(int method, size_t m, size_t k, size_t n, struct patterns *p)
{
    return method == 1 ? integer_classical(m, k, n, p) : method == 5 && integer_nearest(m, k, n, p);
}

#endif
