/* Test drivers, not proved: the random wear of a cell, its bytes 12 to 15 as one number: a
   class in a class sheet, the pattern of an amount in an amount sheet. */
#ifndef WEAR_DRAW_H
#define WEAR_DRAW_H

#include <stdbool.h>
#include <stdint.h>

/* Without fault: a class from 0 to 7; or an amount, which is a zero of either sign, below
   1/4, or, unless it has to be moderate, of any size up to the largest number. */
uint32_t draw_wear(uint32_t sheet_kind, bool moderate);

/* Wrong or nearly wrong: a class of 8 or of any byte; or an amount, which is below zero, an
   infinity or a NaN of either sign, or any pattern. */
uint32_t draw_wrong_wear(uint32_t sheet_kind);

/* A number below zero. */
uint32_t draw_below_zero(void);

#endif
