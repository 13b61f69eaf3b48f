/* Test driver of products, not proved: random calls. */
#ifndef PRODUCT_DRAW_H
#define PRODUCT_DRAW_H

#include "product_call.h"

/* Draws a call; `start_draws` must have been called before. */
void draw_call(struct call *call);

#endif
