/* Tests of the C functions, not proved: what the files share. */
#ifndef CHECK_H
#define CHECK_H

#include <stddef.h>
#include <stdint.h>

#include "coupling.h"

#define HALF 0x3F000000u
#define ONE 0x3F800000u
#define TWO 0x40000000u
#define THREE 0x40400000u
#define FOUR 0x40800000u
#define MINUS 0x80000000u /* the sign bit: MINUS | ONE is -1 */

#define GUARD_BYTE 0xA5
#define GUARD 0xA5A5A5A5u /* a word of such bytes */

#define COUNT(array) (sizeof(array) / sizeof *(array))

/* Ends the program with status 1, and prints the line, where it does not hold. */
#define CHECK(holds) check(holds, #holds, __FILE__, __LINE__)
void check(int holds, const char *text, const char *file, int line);

/* The code of a refusal. */
uint32_t refusal(uint32_t number, uint32_t matrix, uint32_t row, uint32_t column);

/* Whether these words are all GUARD. */
int untouched(const uint32_t *words, size_t count);

/* A sheet of 2 by 2 with cells (0, 0) and (1, 1), both [-1, 1]: a class sheet, of
   class 0, or an amount sheet, cell (0, 0) with amount 0 and cell (1, 1) with this one.
   The latter with 0 is what is written for the matrix of both. */
#define LENGTH 48
void put_sheet(uint8_t *sheet);
void put_amount_sheet(uint8_t *sheet, uint32_t amount);

/* A load of the amounts by which sheets are widened where none are loaded. */
void put_fixed_amounts(uint8_t *load);

/* What is lent to a read of that sheet: 8 words for lower and for upper bounds,
   between two guards on each side. lend() makes all of them guards. left(r), r being
   what the read returned, is r, and checks that a refusal changed no word and a
   success only the four of the matrix. */
#define ROOM 12
extern uint32_t lowers[ROOM], uppers[ROOM];
void lend(void);
uint32_t left(uint32_t r);

/* Reads a sheet into slices of these lengths, with a load and without one. Both leave
   the same and return the same, which is returned. */
uint32_t read_alike(const uint8_t *load, const uint8_t *sheet, size_t length, size_t lowers_len, size_t uppers_len);

/* A cell as it is handed to a running entry, with its wear class. */
struct gauged {
    uint32_t lower, upper, wear;
};

void test_job(void);
void test_train(void);
void test_sheets(void);
void test_amounts(void);
void test_kinds(void);
void test_product(void);
void test_running(void);
void test_gauging(void);
void test_operations(void);
void test_conversions(void);
void test_surroundings(void);

#endif
