/* Test drivers, not proved: random sheets, valid and damaged. Each function writes a
   sheet into memory of BYTES bytes (lent.h) and returns its length. */
#ifndef SHEET_DRAW_H
#define SHEET_DRAW_H

#include <stdbool.h>
#include <stddef.h>
#include <stdint.h>

/* Two numbers, the lower one first: any, or of moderate size, below 2^10, so that no
   product of eight matrices of such numbers is too large. */
void draw_bounds(bool moderate, uint32_t *lower, uint32_t *upper);

/* A class sheet or an amount sheet without fault, except that a bound may overflow when it
   is widened. The records are in random order, and some are not in the chain. Moderate
   amounts are below 1/4; of the other amount sheets half have them too. */
size_t draw_valid_sheet(uint8_t *sheet, uint32_t rows, uint32_t columns, bool moderate_bounds, bool moderate_amounts);

/* The same of any size, mostly up to 5 by 5, with amounts of any size. */
size_t draw_any_valid_sheet(uint8_t *sheet, bool moderate_bounds);

/* A sheet that is valid, with damaged fields, with random next indices, or of random
   bytes. Mostly its kind is that of a class sheet or an amount sheet. */
size_t draw_sheet(uint8_t *sheet);

#endif
