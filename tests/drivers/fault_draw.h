/* Test drivers, not proved: puts a fault or a large number into a valid sheet that has at
   least one cell in its chain. */
#ifndef FAULT_DRAW_H
#define FAULT_DRAW_H

#include <stdint.h>

/* One of the refusals of a sheet of this kind: 1, 3 to 8, and 10 of a class sheet or 14 of an
   amount sheet, which are twice as frequent as the others. */
uint32_t draw_fault_number(uint32_t sheet_kind);

/* One fault, so that a read of the sheet is refused with this number. */
void put_fault(uint8_t *sheet, uint32_t number);

/* A bound from 2^112 on in one cell, so that a product may be too large, or |m| + r of the
   cell itself. */
void put_large(uint8_t *sheet);

/* Bounds in one cell that are the largest number or next to it, or just too large, when they
   are widened by the amount of the cell's class in this load or, in an amount sheet, by the
   cell's own amount. */
void put_limit(uint8_t *sheet, const uint8_t *load);

#endif
