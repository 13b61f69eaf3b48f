/* Independent implementation, not proved: declarations that its files share. */
#ifndef PARTS_H
#define PARTS_H

#include <stdbool.h>

#include "oracle.h"

#define SIGN_BIT 0x80000000u
#define MAX_SIZE 32
#define MAX_CELLS 1024
#define CLASSES 8        /* wear classes, from 0 on */

static const struct refusal ACCEPTED = {0, 0, 0, 0};

/* A matrix with the memory for its bounds. */
struct matrix {
    size_t rows, columns;
    uint32_t lo[MAX_CELLS], hi[MAX_CELLS];
};

/* One pair of an entry: a cell of A and a cell of B, as bounds and, unless the method is
   1, as midpoint and radius. */
struct pair {
    uint32_t a_lo, a_hi, b_lo, b_hi;
    uint32_t m_a, r_a, m_b, r_b;
};

/* One entry of a product; it is refused where one of its steps is. */
struct entry {
    uint32_t lo, hi;
    bool refused;
};

/* number.c */
bool is_finite(uint32_t pattern);             /* exponent field not 255 */
float value_of(uint32_t pattern);             /* of a finite pattern */
uint32_t magnitude(uint32_t pattern);         /* |x| */

/* interval.c */
struct refusal refuse(uint32_t number, uint32_t matrix, size_t row, size_t column);
uint32_t check_bounds(uint32_t lo, uint32_t hi);       /* 0, 3 or 4 */
bool size_in_range(size_t size);                       /* 1 to 32 */

/* methods.c; a refused step sets *refused and returns 0 */
bool method_known(uint32_t method);
struct entry entry_by_method(uint32_t method, const struct pair *pairs, size_t k);
uint32_t step(bool *refused, enum operation operation, enum direction direction, uint32_t a, uint32_t b);
uint32_t lesser(uint32_t a, uint32_t b);

/* methods.c: a step of method 1, which adds a pair to the sums; a refused one marks them */
void add_classical(struct entry *sums, const struct pair *pair);

/* methods_midrad.c and method_five.c */
struct entry three_products(const struct pair *pairs, size_t k);
struct entry four_products(const struct pair *pairs, size_t k);
struct entry five_products(const struct pair *pairs, size_t k);
struct entry seven_products(const struct pair *pairs, size_t k);

/* methods_midrad.c: sum + a * b, the product rounded first, then the sum; p, which is
   sign(m) * min(|m|, r); the sum of mA * mB, continued with pA * pB, all rounded in the
   same direction. */
uint32_t add_product(bool *refused, enum direction direction, uint32_t sum, uint32_t a, uint32_t b);
uint32_t part(uint32_t m, uint32_t r);
uint32_t centre_with_parts(bool *refused, enum direction direction, const struct pair *pairs, size_t k);

/* amounts.c: the patterns of the fixed wear amounts, 0 for class 0 and 2^(c - 11) for class c;
   those of a load, given where its check returns 0 */
extern const uint32_t fixed_amounts[CLASSES];
uint32_t load_amounts(const uint8_t *load, size_t load_len, uint32_t *amounts);

/* sheet_read.c: a little-endian number of four bytes; whether all bytes are zero */
uint32_t get_32(const uint8_t *bytes);
bool all_zero(const uint8_t *bytes, size_t count);

/* sheet_cell.c: checks the amount and the bounds of a cell for refusals 3, 4 and 5, and returns
   0 or the number; on 0, gives the bounds, widened by the amount. */
uint32_t widen_cell(uint32_t amount, uint32_t lower, uint32_t upper, uint32_t *lo, uint32_t *hi);

/* sheet_cell.c: checks one cell of a sheet of this kind for refusals 6 and 10, or 14, then 3,
   4 and 5, and returns 0 or the number; on 0, gives the bounds, widened by the cell's wear.
   `amounts` has an amount for each wear class. */
uint32_t read_cell(uint32_t kind, const uint32_t *amounts, const uint8_t *record, uint32_t *lo, uint32_t *hi);

/* sheet_read.c: the length of the first of the sheets that stand back to back in len bytes:
   16 for each of its records, or all bytes where they are fewer or end before the record
   count. */
size_t length_of_first(const uint8_t *sheets, size_t len);

/* job.c; a refusal has the matrix number of the job */
struct refusal read_sheet(uint32_t matrix, const uint8_t *s, size_t len, struct matrix *cells);
struct refusal multiply_matrices(uint32_t method, const struct matrix *a, const struct matrix *b,
                                 struct matrix *c);
struct refusal multiply_sheets(uint32_t method, const uint8_t *a, size_t a_len,
                               const uint8_t *b, size_t b_len, struct matrix *c);

/* job.c: writes the sheet of c unless r is a refusal. Returns its length, or the code of
   the refusal; that of the writer gets this matrix number. */
uint32_t write_result(struct refusal r, const struct matrix *c, uint32_t matrix,
                      uint8_t *out, size_t out_len);

#endif
