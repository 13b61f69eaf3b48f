/* Test driver of running entries, not proved: random cells as they are gauged. */
#ifndef GAUGED_DRAW_H
#define GAUGED_DRAW_H

#include "cells.h"
#include "oracle.h"

/* A cell without fault, of any class or of class 0; it may be too large when it is widened. */
void draw_gauged(struct kind kind, bool worn, struct gauged *cell);

/* One or two of these: a class above 7, bounds with exponent field 255, crossed ones, bounds
   that are too large or close to it when they are widened. `amounts` are those in force. */
void spoil_gauged(struct kind kind, const uint32_t *amounts, struct gauged *cell);

/* A pair that brings one of the sums of the value to the largest number of either sign, or to
   zero, or a few steps from there; often that sum alone. */
void draw_pair_to_limit(const uint32_t *value, struct gauged *a, struct gauged *b);

#endif
