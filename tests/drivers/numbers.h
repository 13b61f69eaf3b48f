/* Test drivers, not proved: random patterns of binary32. */
#ifndef NUMBERS_H
#define NUMBERS_H

#include <stdint.h>

#define SIGN 0x80000000u
#define INFINITE 0x7F800000u    /* exponent field 255, fraction 0 */
#define MAX 0x7F7FFFFFu         /* the largest number */
#define ONE 0x3F800000u
#define TWO 0x40000000u

/* Edge patterns, near which rounding is decided: zeros, one to three units, the smallest
   normal numbers, halves of an ulp, MAX, exponent field 255. */
#define EDGES 48
extern const uint32_t edges[EDGES];

/* 23 random bits, or only the top two random, or a run of ones and a run of zeros. */
uint32_t draw_fraction(void);

uint32_t draw_sign(uint32_t magnitude);

/* A number of either sign; an exponent field outside 0 to 254 is moved into that range. */
uint32_t draw_number(int field, uint32_t fraction);

uint32_t draw_not_finite(void);     /* an infinity or a NaN, of either sign */
uint32_t draw_pattern(void);        /* any pattern; edge patterns are frequent */

/* Exchanges the two finite patterns where the first has the greater value. */
void put_in_order(uint32_t *lower, uint32_t *upper);

/* The operands of an operation, or the bounds of a range, of one of twelve kinds, such as
   subnormal numbers, ties, neighbours, products near MAX, exponent field 255. */
void draw_pair(uint32_t *a, uint32_t *b);

#endif
