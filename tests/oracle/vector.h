/* Independent implementation, not proved: the line of a test vector.

   "XY AAAAAAAA BBBBBBBB RRRRRRRR" and a line feed, 30 bytes: X is the
   operation (+ - x m), Y the direction (d u n), then two operands and the
   result in hexadecimal capitals, or "refuse 3" or "refuse 5". */
#ifndef VECTOR_H
#define VECTOR_H

#include "oracle.h"

#define OPERATION_LETTERS "+-xm"
#define DIRECTION_LETTERS "dun"
#define VECTOR_LENGTH 30    /* line feed included */
#define RESULT_AT 21        /* where the result starts */

/* Computes the operation and prints its line to standard output. */
void print_vector(enum operation operation, enum direction direction,
                  uint32_t a, uint32_t b);

#endif
