/* Test drivers, not proved: the memory that is lent to a call. Every slice is between
   two guards. The library and the independent implementation get equal memory; after
   the two calls all of it is compared, with the guards and the memory that is only
   read. */
#ifndef LENT_H
#define LENT_H

#include <stdbool.h>
#include <stddef.h>
#include <stdint.h>

#define GUARD 16        /* words or bytes of a guard, one on each side of a slice */
#define CELLS 1056      /* 1,024, the most cells of a matrix, and a surplus */
#define BYTES 18448     /* 16,400, the longest sheet, and a surplus */
#define LOAD_BYTES 64   /* 32, a load of wear amounts, and a surplus */

#define GUARDED(slice) (GUARD + (slice) + GUARD)

/* Fills memory so that neighbouring words or bytes differ. */
void fill_words(uint32_t *memory, size_t count);
void fill_bytes(uint8_t *memory, size_t count);

/* Whether the library's value or memory equals the expected one. In the first call of a
   run that differs, prints the first word or byte that differs in each slice, with its
   index in the slice. */
bool same_number(const char *name, uint32_t library, uint32_t expected);
bool same_words(const char *name, const uint32_t *library, const uint32_t *expected, size_t count);
bool same_bytes(const char *name, const uint8_t *library, const uint8_t *expected, size_t count);

#endif
