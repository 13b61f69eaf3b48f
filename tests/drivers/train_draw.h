/* Test driver of trains, not proved: random arguments. */
#ifndef TRAIN_DRAW_H
#define TRAIN_DRAW_H

#include "lent.h"

#define TRAIN_BYTES (9 * BYTES)     /* 8 sheets, the most of a train, and a surplus */

struct train {
    uint32_t method, count;
    uint32_t misfit;    /* the position of a sheet whose only fault is that it does not fit, or 0 */
    size_t length;
    uint8_t sheets[GUARDED(TRAIN_BYTES)];
};

/* Draws a method, which is mostly 1, 3, 4, 5 or 7, a count, which is mostly 1 to 8, and
   the bytes of the sheets, of either kind, between guard bytes, which are filled. Of most
   trains one sheet is wrong in some way, and of some trains a later one too. */
void draw_train(struct train *train);

#endif
