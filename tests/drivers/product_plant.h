/* Test driver of products, not proved: cells of which a few are so large that a step of an
   entry overflows, or almost does. */
#ifndef PRODUCT_PLANT_H
#define PRODUCT_PLANT_H

#include "cells.h"
#include "product_call.h"

/* A matrix: the slices of its bounds, and the kind of its numbers. */
struct matrix {
    enum slice lowers, uppers;
    struct kind kind;
};

void fill_matrix(struct call *call, const struct matrix *x);

/* All cells are small but for one of A and one of B, whose product overflows: only the
   entry that uses both is refused. */
void plant_overflow(struct call *call);

/* A cell for which |m| + r overflows, all cells of the other matrix being points. Where it
   is one of B, methods 3, 4, 5 and 7 refuse the first entry of its column; where it is one
   of A, method 5 the first of its row, and the others accept, as method 1 always does. */
void plant_wide_cell(struct call *call);

/* One entry is the largest number or a few steps less, or its range is about zero with
   such an end: where a method adds to the radius, this step decides. */
void plant_largest(struct call *call);

/* Two products of one entry are opposed: their sum is small, and the sum of their
   magnitudes the largest number, or a few steps more or less. */
void plant_opposed(struct call *call);

#endif
