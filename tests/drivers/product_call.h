/* Test driver of products, not proved: one call, with all memory that is lent to it. */
#ifndef PRODUCT_CALL_H
#define PRODUCT_CALL_H

#include "coupling.h"
#include "lent.h"

/* The slices: bounds of A and B, midpoints and radii of both, bounds of the result. */
enum slice { AL, AU, BL, BU, MA, RA, MB, RB, CL, CU, SLICES };

struct call {
    uint32_t method;
    size_t a_rows, a_columns, b_rows, b_columns;
    size_t lengths[SLICES];
    uint32_t memory[SLICES][GUARDED(CELLS)];
};

/* The answer of a call, and the memory afterwards. */
struct answer {
    uint32_t code;
    uint32_t memory[SLICES][GUARDED(CELLS)];
};

/* A word of a slice, before the call and after it. */
uint32_t *cell(struct call *call, enum slice slice, size_t at);
uint32_t left_in(const struct answer *answer, enum slice slice, size_t at);

/* How many cells a slice must have, by the sizes. */
size_t cells_of(const struct call *call, enum slice slice);

/* Sets the method and the sizes, and makes each slice exactly as long as its cells, with
   a different value in each word. */
void prepare(struct call *call, uint32_t method, size_t m, size_t k, size_t n);

void ask_library(const struct call *call, struct answer *answer);
void ask_oracle(const struct call *call, struct answer *answer);

/* Whether the codes and all words are equal. */
bool same_answer(const struct answer *library, const struct answer *oracle);

#endif
