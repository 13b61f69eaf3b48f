/* Benchmarks, not proved: the products in plain C on the machine's floats, a peer. */
#ifndef PLAIN_PRODUCT_H
#define PLAIN_PRODUCT_H

#include "matrices.h"

/* Bounds of A, B and the result, and the midpoints and radii of A and B. */
struct floats {
    float al[CELLS], au[CELLS], bl[CELLS], bu[CELLS];
    float ma[CELLS], ra[CELLS], mb[CELLS], rb[CELLS];
    float lo[CELLS], up[CELLS];
};

/* A (m by k) times B (k by n) by method 1, 3, 4, 5 or 7. Sizes up to 32, valid cells and
   the rounding mode to nearest are assumed and not checked; the mode is the same on
   return. Returns whether all entries are finite. A zero in the result or in a
   midpoint may have either sign. */
bool plain_product(int method, size_t m, size_t k, size_t n, struct floats *f);

/* Method 1: the lower bounds, in the mode down, and the upper bounds, in the mode up. */
void plain_lowers(size_t m, size_t k, size_t n, struct floats *f);
void plain_uppers(size_t m, size_t k, size_t n, struct floats *f);

/* Methods 3, 4 and 7: all bounds. The mode is to nearest at the call and down on return. */
void plain_centred(int method, size_t m, size_t k, size_t n, struct floats *f);

/* Method 5: all bounds. The mode is to nearest at the call and up on return. */
void plain_nearest(size_t m, size_t k, size_t n, struct floats *f);

/* Mode nearest: the exact midpoint of each cell, rounded once. */
void plain_midpoints(size_t cells, const float *lo, const float *up, float *m);

/* Mode up: the larger of the distances from the midpoint to the bounds. */
void plain_distances(size_t cells, const float *lo, const float *up, const float *m, float *r);

/* In any mode: sign(m) * min(|m|, r). */
void plain_parts(size_t cells, const float *m, const float *r, float *p);

#endif
