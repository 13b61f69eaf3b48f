/* Interface of the independent implementation, not proved, called the oracle.

   It is written from the requirements alone, shares no code with the library, and rounds
   by the machine's own rounding modes. The tests compare the library with it. Numbers
   are binary32 patterns. A slice is a pointer followed by its length; a length of zero is
   allowed. Matrices are stored by rows. */
#ifndef ORACLE_H
#define ORACLE_H

#include <stdbool.h>
#include <stddef.h>
#include <stdint.h>

enum operation { ADD, SUB, MUL, MIDPOINT };
enum direction { DOWN, UP, NEAR };

/* number: 1 to 14, or 0 for an accepted call; then the other three are 0 too.
   matrix: 1 is A, 2 is B, 3 is the result, 0 is none of them; in a train it is the
   position of a sheet, 1 to 8, or 9 for a product or the writing. */
struct refusal { uint32_t number, matrix, row, column; };

/* One operation, rounded once. Returns 0, or the refusal 3 or 5; *result is written only
   on 0. MIDPOINT is (a + b)/2, where a may be above b. */
uint32_t oracle_operate(enum operation operation, enum direction direction,
                        uint32_t a, uint32_t b, uint32_t *result);

/* [lo, hi] to <m, r>: refused with 3 or 4. Writes only when accepted. */
struct refusal oracle_to_midrad(uint32_t lo, uint32_t hi,
                                uint32_t *m, uint32_t *r);

/* <m, r> to [lo, hi]: refused with 3, 4 or 5. Writes only when accepted. */
struct refusal oracle_to_bounds(uint32_t m, uint32_t r,
                                uint32_t *lo, uint32_t *hi);

/* Whether m - r <= lo and hi <= m + r, without any rounding. All are finite, r >= 0. */
bool oracle_encloses(uint32_t m, uint32_t r, uint32_t lo, uint32_t hi);

/* Whether no pair of numbers that encloses [lo, hi] has a radius below r. All are finite,
   r is the pattern of zero or of a positive number. */
bool oracle_smallest_radius(uint32_t r, uint32_t lo, uint32_t hi);

/* The check of a product's four sizes, refusal 1: A's sizes (matrix 1), then B's sizes or
   the mismatch of A's columns and B's rows (matrix 2). */
struct refusal oracle_check_sizes(size_t a_rows, size_t a_columns,
                                  size_t b_rows, size_t b_columns);

/* A (m by k) times B (k by n) by method 1, 3, 4, 5 or 7. m_a, r_a, m_b, r_b are
   the work slices, c_lo and c_hi the result. After success and after refusal
   5 the work slices hold midpoints and radii (method 1: untouched); after 5
   the result cells are 0; after any other refusal nothing is touched. */
struct refusal oracle_product(uint32_t method, size_t m, size_t k, size_t n,
    const uint32_t *a_lo, size_t a_lo_len, const uint32_t *a_hi, size_t a_hi_len,
    const uint32_t *b_lo, size_t b_lo_len, const uint32_t *b_hi, size_t b_hi_len,
    uint32_t *m_a, size_t m_a_len, uint32_t *r_a, size_t r_a_len,
    uint32_t *m_b, size_t m_b_len, uint32_t *r_b, size_t r_b_len,
    uint32_t *c_lo, size_t c_lo_len, uint32_t *c_hi, size_t c_hi_len);

/* Reads a coupling sheet of len bytes, a class sheet or an amount sheet. When accepted,
   writes all rows times columns cells and both sizes; otherwise touches nothing. */
struct refusal oracle_read(const uint8_t *s, size_t len,
                           uint32_t *lo, size_t lo_len,
                           uint32_t *hi, size_t hi_len,
                           size_t *rows, size_t *columns);

/* The same with a load, eight wear amounts of a mill, in place of the fixed ones. The load
   is checked before the sheet; its refusals have matrix, row and column 0. An amount sheet
   has its own amounts, and those of the load are not used. */
struct refusal oracle_read_with(const uint8_t *load, size_t load_len,
                                const uint8_t *s, size_t len,
                                uint32_t *lo, size_t lo_len,
                                uint32_t *hi, size_t hi_len,
                                size_t *rows, size_t *columns);

/* The check of a load alone. Returns 0, or the refusal: 6 where it has not 32 bytes, 3
   where a pattern has exponent field 255, 13 where the first amount is not zero or an
   amount is below the one before it. */
uint32_t oracle_check_amounts(const uint8_t *load, size_t load_len);

/* The check of length and head in the reader from before, which knew class sheets alone:
   returns 0, or 6 also where one of bytes 6 to 15 of the head is not zero. */
uint32_t oracle_check_before(const uint8_t *s, size_t len);

/* Writes a coupling sheet, an amount sheet with the amount zero in each cell, to the front
   of out. *written is the length of that front part, 0 on a refusal, which leaves out
   untouched. */
struct refusal oracle_write(size_t rows, size_t columns,
                            const uint32_t *lo, size_t lo_len,
                            const uint32_t *hi, size_t hi_len,
                            uint8_t *out, size_t out_len, size_t *written);

/* The sheet job: reads two sheets, multiplies them, writes the sheet of the product.
   Returns its length, or 1,000,000 number + 10,000 matrix + 100 row + column of the
   refusal; then out is untouched. */
uint32_t oracle_job(uint32_t method, const uint8_t *a, size_t a_len,
                    const uint8_t *b, size_t b_len,
                    uint8_t *out, size_t out_len);

/* The train: reads `count` sheets, which stand back to back in len bytes, multiplies them
   from the left, each product being the next left factor, and writes the sheet of the
   last product. Returns as the sheet job does. */
uint32_t oracle_train(uint32_t method, uint32_t count, const uint8_t *sheets, size_t len,
                      uint8_t *out, size_t out_len);

#define RUNNING_WORDS 11    /* numbers of a running entry's value */

/* A cell as it is gauged: its bounds and its wear class, which may be any number. */
struct gauged { uint32_t lower, upper, wear_class; };

/* The check of such a cell, where `amounts` has an amount for each class. Returns 0, or 10, 3,
   4 or 5; on 0, gives the bounds, widened. */
uint32_t oracle_gauge(const uint32_t *amounts, struct gauged cell, uint32_t *lo, uint32_t *hi);

/* A running entry with its history: the cells of all pairs taken, each as it was widened then,
   the classical entry over them, and the amounts in force. */
struct running {
    size_t pairs;
    uint32_t a_lo[32], a_hi[32], b_lo[32], b_hi[32];
    uint32_t lo, hi, amounts[8];
};

/* The running entry: begins, takes a pair of cells, exchanges the amounts for those of a load.
   The entry is worked out afresh from all pairs, each time that one is taken, and written into
   the value: lower bound, upper bound, number of pairs, the eight amounts. Returns 0, or
   1,000,000 times the number of the refusal. A value shorter than RUNNING_WORDS (2) is not
   touched. */
uint32_t oracle_running_start(struct running *running, uint32_t *value, size_t len);
uint32_t oracle_running_take(struct running *running, uint32_t *value, size_t len,
                             struct gauged a, struct gauged b);
uint32_t oracle_running_amounts(struct running *running, uint32_t *value, size_t len,
                                const uint8_t *load, size_t load_len);

/* The same by one step from the words of the value, whatever they are. */
uint32_t oracle_value_start(uint32_t *value, size_t len);
uint32_t oracle_value_take(uint32_t *value, size_t len, struct gauged a, struct gauged b);
uint32_t oracle_value_amounts(uint32_t *value, size_t len, const uint8_t *load, size_t load_len);

/* The output of the program print_product for this standard input. Returns the length of
   the whole text and puts as much of it into text as there is room for. */
size_t oracle_print(const uint8_t *input, size_t len, char *text, size_t room);

#endif
