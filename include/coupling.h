/* Interval matrices in binary32, rounded in software, for C and C++: products of
   coupling sheets, sheets read and written, products of matrices, one entry of a
   product taken pair by pair, and the single operations.

   Proved of the library (crates/coupling), for all arguments: what each call
   returns, what it leaves in lent memory, and that ranges enclose. Not proved: this
   header with its macros, and what it says of threads and stack, which is tested.

   Numbers: a binary32 number is passed as its pattern, a uint32_t with the bits
   of the float. A pattern with exponent field 255, an infinity or no number, is
   refused. Minus zero is read as zero, and a zero that is computed is the
   pattern 0. A matrix is two arrays, of lower and of upper bounds, its cells by
   rows; it has 1 to 32 rows and columns.

   Refusals: a call that turns its arguments down returns
   1,000,000 x number + 10,000 x matrix + 100 x row + column, which
   COUPLING_REFUSED tells from every other answer. The matrix is 1 for A, 2 for B,
   3 for the result and 0 for none; in a train it is the sheet's position, 1 to 8,
   or 9 for a product or the writing. Row and column count from 0. They are the
   place of a cell for 3, 4, 5, 10 and 14, but 0 where 3 is about a load, and 0 for
   the other numbers. The running entry and the conversions name no place: all three
   are 0. The first refusal in the order that is given for each call is returned.
   Single operations return one number alone, and have a form of their own below.

   Lent memory: a refusal leaves all of it as it was, but for number 5 of
   coupling_product. What lies beyond the cells, words or bytes that a call writes
   stays as it was, so longer arrays are welcome. What is passed as const is only
   read.

   Pointers: each is valid for its length and aligned for its type, and none is
   kept. What is passed for writing overlaps nothing else that is passed; what is
   only read may overlap. A length of zero is legal, but its pointer must not be
   null: any object's address will do.

   Threads: calls may run at the same time, each with memory of its own to write
   to. No call uses a heap or writable global data, does input or output, or reads
   or changes floating-point state.

   Stack: on x86-64 a call of coupling_multiply or coupling_train took at most
   59,864 bytes below its caller's frame, measured on 32 by 32 sheets by each
   method (tests/drivers/stack.c); the other calls take less. COUPLING_STACK bytes
   are enough for each call. */
#ifndef COUPLING_H
#define COUPLING_H

#include <stddef.h>
#include <stdint.h>

#define COUPLING_SIZE_MAX 32     /* rows or columns of the largest matrix */
#define COUPLING_CELLS_MAX 1024  /* its cells */
#define COUPLING_SHEET_MAX 16400 /* bytes of the longest sheet; a buffer of this length is never too short */
#define COUPLING_SHEETS_MAX 8    /* sheets of the longest train */
#define COUPLING_LOAD_BYTES 32   /* bytes of a load of eight wear amounts */
#define COUPLING_PAIRS_MAX 32    /* pairs that a running entry takes */
#define COUPLING_STACK 65536     /* bytes of stack that are enough for a call */

/* The kind of a sheet, byte 6 of its head. */
#define COUPLING_KIND_CLASS 0    /* a class sheet: each cell has a wear class */
#define COUPLING_KIND_AMOUNT 1   /* an amount sheet: each cell has a wear amount */

/* The words of a running entry: how many there are, and which is which. */
#define COUPLING_RUNNING_WORDS 11
#define COUPLING_RUNNING_LOWER 0   /* the lower bound so far, a pattern */
#define COUPLING_RUNNING_UPPER 1   /* the upper bound so far */
#define COUPLING_RUNNING_PAIRS 2   /* how many pairs were taken */
#define COUPLING_RUNNING_AMOUNTS 3 /* class 0's wear amount, a pattern; class c's is c words further on */

/* The numbers of the refusals; coupling_sentences.h has a sentence for each. */
#define COUPLING_SIZE 1
#define COUPLING_SHORT 2
#define COUPLING_NOT_FINITE 3
#define COUPLING_CROSSED 4
#define COUPLING_OVERFLOW 5
#define COUPLING_LAYOUT 6
#define COUPLING_INDEX 7
#define COUPLING_UNORDERED 8
#define COUPLING_METHOD 9
#define COUPLING_CLASS 10
#define COUPLING_ROOM 11
#define COUPLING_COUNT 12
#define COUPLING_AMOUNTS 13
#define COUPLING_BELOW_ZERO 14

/* Whether r, which a call returned, is a refusal; and the parts of r if it is. */
#define COUPLING_REFUSED(r) ((r) >= 1000000u)
#define COUPLING_NUMBER(r) ((r) / 1000000u)
#define COUPLING_MATRIX(r) ((r) / 10000u % 100u)
#define COUPLING_ROW(r) ((r) / 100u % 100u)
#define COUPLING_COLUMN(r) ((r) % 100u)

/* Rows and columns, from an answer of coupling_read or coupling_read_with that is
   no refusal. */
#define COUPLING_READ_ROWS(r) ((r) / 100u)
#define COUPLING_READ_COLUMNS(r) ((r) % 100u)

/* Patterns: the largest number, and infinity, whose bits are the exponent field. */
#define COUPLING_LARGEST 0x7F7FFFFFu
#define COUPLING_INFINITY 0x7F800000u

/* Whether p, which an operation returned, is a refusal; and its number if it is. */
#define COUPLING_OPERATION_REFUSED(p) (((p) & COUPLING_INFINITY) == COUPLING_INFINITY)
#define COUPLING_OPERATION_NUMBER(p) ((p) - COUPLING_INFINITY)

#ifdef __cplusplus
extern "C" {
#endif

/* ---- The sheet job ----

   Reads sheet A and sheet B, multiplies them by a method, which is 1 (classical),
   3, 4, 5 or 7, and writes the product's sheet to the front of out, as
   coupling_write does. Returns the length written, 16 to 16,400, or the first of
   these refusals:
     9            the method is not 1, 3, 4, 5 or 7
     matrix 1     A's sheet, as coupling_read refuses it (never 2)
     matrix 2     B's sheet, likewise
     1, matrix 2  A's columns are not B's rows
     5, matrix 3  a result is too large for binary32, in a step of this entry,
                  the first such by rows
     11, matrix 3 out is shorter than the product's sheet
   The ranges that were written enclose: whatever numbers are picked, one from
   each cell of a row of A and of a column of B, as read, the sum of the products
   lies in the entry's range. */
uint32_t coupling_multiply(uint32_t method, const uint8_t *a, size_t a_len, const uint8_t *b, size_t b_len, uint8_t *out, size_t out_len);

/* ---- A train of couplings ----

   The same for count sheets, 1 to COUPLING_SHEETS_MAX, that stand back to back in
   sheets: they are multiplied from the left by one method, each product of two
   being the next left factor, and the sheet of the last product is written to the
   front of out. A sheet has 16 x its record count bytes, or all that is left
   where that is fewer or ends before the count; the last sheet has all that is
   left. Returns the length written, or the first of these refusals:
     9            the method is not 1, 3, 4, 5 or 7
     12           count is 0 or above 8
   then sheet by sheet, p being its position from 1 on; no byte of a sheet is
   looked at before its turn:
     matrix p     the sheet, as coupling_read refuses it (never 2)
     1, matrix p  the columns of the product so far are not the sheet's rows
     5, matrix 9  a result is too large for binary32, in a step of this entry of
                  the product, the first such by rows
   and at last:
     11, matrix 9 out is shorter than the last product's sheet
   One sheet alone is returned as it was read: an amount sheet of its widened
   cells, amount zero in each. A train may have sheets of both kinds. The ranges
   that were written enclose: whatever matrices of numbers are picked, one number
   from each cell of each sheet as read, their product lies in them. */
uint32_t coupling_train(uint32_t method, uint32_t count, const uint8_t *sheets, size_t sheets_len, uint8_t *out, size_t out_len);

/* ---- Sheets ----

   A sheet is a head and a record for each cell, of 16 bytes each. Numbers are
   little-endian. The head is record 0:
     bytes 0-1    index of the first cell's record, 0 where there is no cell
     byte 2, 3    rows, columns
     bytes 4-5    number of records, the head counted
     byte 6       the kind: COUPLING_KIND_CLASS or COUPLING_KIND_AMOUNT
     bytes 7-15   zero
   A cell:
     bytes 0-1    index of the next cell's record, 0 where there is none
     byte 2, 3    row, column
     bytes 4-7    lower bound
     bytes 8-11   upper bound
     bytes 12-15  in a class sheet the wear class, 0 to 7, in byte 12, then zeros;
                  in an amount sheet the wear amount, finite and not below zero
   Along the chain cells rise by row, then column. A place without a cell is [0, 0],
   and records outside the chain are not looked at. When a sheet is read, each cell
   is widened: its amount, or that of its class, is subtracted from the lower bound,
   rounded down, and added to the upper bound, rounded up.

   Reads a sheet: its matrix, each cell widened, goes to the front of lowers and
   uppers. Class 0 has the amount 0, class c from 1 to 7 has 2^(c - 11). Returns
   100 x rows + columns, or the first of: 6 for the sheet's length and head, 1 for
   its sizes, 2 for lowers and uppers shorter than its cells, then for each cell
   along the chain
     7, 8         its index or place, and its order
     6, 10        in a class sheet: bytes 13 to 15, and the class
     14           in an amount sheet: the amount is a number below zero; minus zero
                  is not
     3            the amount or a bound has exponent field 255
     4, 5         the lower bound is above the upper; widened it is too large
   The matrix named is 0; 3, 4, 5, 10 and 14 have the row and column. */
uint32_t coupling_read(const uint8_t *sheet, size_t sheet_len, uint32_t *lowers, size_t lowers_len, uint32_t *uppers, size_t uppers_len);

/* Reads a sheet with eight wear amounts of the caller's own in place of those that
   the classes have above. They are loaded with each call: class c widens a cell by
   the number whose pattern is in bytes 4 c to 4 c + 3 of amounts, little-endian. In
   an amount sheet they are not used: its cells have their own. The load is checked
   before the sheet is looked at, whatever its kind is. The first of these refuses
   it, with matrix, row and column 0:
     6            amounts_len is not COUPLING_LOAD_BYTES
     3            an amount has exponent field 255
     13           the first amount is not zero, or one is below the one before it
   Amounts are compared by value: minus zero counts as zero, and equal ones pass.
   All else is as in coupling_read: what is returned, the refusals of the sheet in
   their order, and what is left in lent memory. */
uint32_t coupling_read_with(const uint8_t *amounts, size_t amounts_len, const uint8_t *sheet, size_t sheet_len,
                            uint32_t *lowers, size_t lowers_len, uint32_t *uppers, size_t uppers_len);

/* Writes the sheet of a matrix to the front of out: an amount sheet, whose cells
   that are not [0, 0] stand by rows in records 1, 2, 3, .. with amount zero. Returns
   the length written, or the first of: 1, 2, then 3 and 4 cell by cell, 11. The
   matrix named is 0. What was written, coupling_read reads as the same numbers, and
   so does coupling_read_with, whatever load it accepts. A reader from before there
   were amount sheets refuses it with 6. */
uint32_t coupling_write(size_t rows, size_t columns, const uint32_t *lowers, size_t lowers_len, const uint32_t *uppers,
                        size_t uppers_len, uint8_t *out, size_t out_len);

/* ---- The product of two matrices ----

   The bounds of A times B by a method go to the front of lowers and uppers. The
   four work arrays take the midpoints and radii of A's cells and of B's; method 1
   leaves them as they were, but their lengths are checked too. Returns 0, or the
   first of:
     9            the method is not 1, 3, 4, 5 or 7
     1            sizes: A's (matrix 1), B's or A's columns are not B's rows (2)
     2            an array is shorter than its cells: A (matrix 1), B (2), work
                  (0), result (3)
     3, 4         A's cells by rows (matrix 1), then B's (2)
     5, matrix 3  a result is too large for binary32, in a step of this entry,
                  the first such by rows: the result's cells are then 0, and the
                  work arrays hold midpoints and radii
   The ranges enclose, as those of coupling_multiply do. */
uint32_t coupling_product(uint32_t method, size_t a_rows, size_t a_columns, size_t b_rows, size_t b_columns,
                          const uint32_t *a_lowers, size_t a_lowers_len, const uint32_t *a_uppers, size_t a_uppers_len,
                          const uint32_t *b_lowers, size_t b_lowers_len, const uint32_t *b_uppers, size_t b_uppers_len,
                          uint32_t *a_mids, size_t a_mids_len, uint32_t *a_rads, size_t a_rads_len,
                          uint32_t *b_mids, size_t b_mids_len, uint32_t *b_rads, size_t b_rads_len,
                          uint32_t *lowers, size_t lowers_len, uint32_t *uppers, size_t uppers_len);

/* ---- The running entry ----

   One entry of a product by method 1 while its linkages are gauged: pairs of cells,
   one of a row of A and its partner in a column of B, are taken one after another,
   and after each the range so far can be read. The value is an array of
   COUPLING_RUNNING_WORDS numbers, which the caller keeps and lends to each call; the
   macros above say which word is which. A copy of it is a running entry of its own.
   Each refusal has matrix, row and column 0 and leaves all words as they were.

   Starts a running entry: the range [0, 0], no pairs, and the wear amounts that the
   classes have in coupling_read. Returns 0, or 2 where value_len is below
   COUPLING_RUNNING_WORDS. */
uint32_t coupling_running_start(uint32_t *value, size_t value_len);

/* Takes a pair of cells, each given by its bounds and its wear class. A cell is
   widened as in a sheet, by the amount that is in force for its class. Returns 0, or
   the first of:
     2            value_len is below COUPLING_RUNNING_WORDS
     1            COUPLING_PAIRS_MAX pairs were taken already
     10, 3, 4, 5  the first cell: its class is above 7, a bound has exponent field
                  255, the lower bound is above the upper, widened it is too large
     10, 3, 4, 5  the second cell, likewise
     5            a step of method 1 is too large for binary32
   For a value that these calls carried on from its start, lower and upper bound are
   the entry over all pairs taken so far, each widened by the amounts that were in
   force when it was taken: the patterns that coupling_product gives by method 1 for
   the row of the first cells and the column of the second ones, as widened. The range
   encloses: whatever numbers are picked, one from each widened cell, the sum of the
   products lies in it.

   Other words are answered by the same rules on what stands in them, and nothing
   else is checked: 32 pairs or more give 1; an amount with exponent field 255 gives
   3 with the cell that uses it; an amount below zero moves bounds inward, and a cell
   that is crossed by that gives 4 once both cells have passed; after that a bound so
   far with exponent field 255 gives 3. */
uint32_t coupling_running_take(uint32_t *value, size_t value_len, uint32_t a_lower, uint32_t a_upper, uint32_t a_class,
                               uint32_t b_lower, uint32_t b_upper, uint32_t b_class);

/* Exchanges the wear amounts for eight of the caller's own, loaded as for
   coupling_read_with. They hold for the pairs that follow, until the next exchange;
   pairs that were taken before keep theirs, and range and number of pairs stay as
   they are. Returns 0, or the first of:
     2            value_len is below COUPLING_RUNNING_WORDS
     6, 3, 13     the load, as coupling_read_with refuses it */
uint32_t coupling_running_amounts(uint32_t *value, size_t value_len, const uint8_t *amounts, size_t amounts_len);

/* ---- Operations ----

   The exact sum, difference, product or midpoint (a + b) / 2 of two numbers,
   rounded once: down to the greatest number not above it, up to the least not
   below it, or to nearest, ties to even. Each returns the pattern of the result,
   or COUPLING_INFINITY + number: 3 where a or b has exponent field 255, 5 where
   the result is too large for binary32. COUPLING_OPERATION_REFUSED tells the two
   apart. */
uint32_t coupling_add_down(uint32_t a, uint32_t b);
uint32_t coupling_add_up(uint32_t a, uint32_t b);
uint32_t coupling_add_near(uint32_t a, uint32_t b);
uint32_t coupling_sub_down(uint32_t a, uint32_t b);
uint32_t coupling_sub_up(uint32_t a, uint32_t b);
uint32_t coupling_sub_near(uint32_t a, uint32_t b);
uint32_t coupling_mul_down(uint32_t a, uint32_t b);
uint32_t coupling_mul_up(uint32_t a, uint32_t b);
uint32_t coupling_mul_near(uint32_t a, uint32_t b);
uint32_t coupling_midpoint_down(uint32_t a, uint32_t b);
uint32_t coupling_midpoint_up(uint32_t a, uint32_t b);
uint32_t coupling_midpoint_near(uint32_t a, uint32_t b);

/* ---- Conversions ----

   From bounds to midpoint and radius: *mid is the exact midpoint to nearest, ties
   to even, *rad the larger of its distances from lower and upper, rounded up. No
   pair of binary32 numbers that encloses [lower, upper] has a smaller radius.
   Returns 0, or 3 or 4 (lower is above upper); never 5. */
uint32_t coupling_to_midrad(uint32_t lower, uint32_t upper, uint32_t *mid, uint32_t *rad);

/* From midpoint and radius to bounds: *lower is mid - rad rounded down, *upper
   mid + rad rounded up. Returns 0, or 3, 4 (the radius is below zero) or 5. The
   bounds of a pair that coupling_to_midrad gave enclose those that it was given;
   close to the largest number they may be refused with 5. */
uint32_t coupling_to_bounds(uint32_t mid, uint32_t rad, uint32_t *lower, uint32_t *upper);

#ifdef __cplusplus
}
#endif

#endif
