/* Test drivers, not proved: random cells for the matrices of a product. */
#ifndef CELLS_H
#define CELLS_H

#include <stdbool.h>
#include <stdint.h>

/* The kind of the numbers of a matrix: a range of exponent fields. */
struct kind {
    int least, greatest;    /* 0 to 254 */
};

/* The kinds of A and B: of similar size, subnormal, near MAX, any exponent, or with
   products near the smallest or the largest number. */
void draw_kinds(struct kind *a, struct kind *b);

/* A valid cell. */
void draw_cell(struct kind kind, uint32_t *lower, uint32_t *upper);

/* A faulty cell: a bound, or both, with exponent field 255; or a lower bound above the
   upper one. */
void draw_infinite(struct kind kind, uint32_t *lower, uint32_t *upper);
void draw_crossed(struct kind kind, uint32_t *lower, uint32_t *upper);

/* Bounds that are the largest number or next to it, or just too large, when they are widened
   by this amount; one of them may be zero. False, and no bounds, where an amount that is not
   finite or below zero gives no such number. */
bool draw_limit(uint32_t amount, uint32_t *lower, uint32_t *upper);

#endif
