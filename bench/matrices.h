/* Benchmarks, not proved: the two matrices to be multiplied, as patterns. */
#ifndef MATRICES_H
#define MATRICES_H

#include <stdbool.h>
#include <stddef.h>
#include <stdint.h>

#define SIZE 32
#define CELLS 1024

/* Bounds of A (m by k) and B (k by n), by rows. */
struct matrices {
    size_t m, k, n;
    uint32_t al[CELLS], au[CELLS], bl[CELLS], bu[CELLS];
};

/* Magnitudes are from 2^-spread to 2^(spread + 1), with random signs. The two bounds
   of a cell are independent, or, in a narrow data set, c and c(1 + 2^-10). */
struct data_set {
    const char *title;
    uint32_t spread;
    bool narrow;
};

enum { LIKE_SIZE, ANY_SIZE, NARROW, DATA_SETS };

extern const struct data_set data_sets[DATA_SETS];

void draw_matrices(const struct data_set *set, size_t m, size_t k, size_t n, struct matrices *x);

#endif
