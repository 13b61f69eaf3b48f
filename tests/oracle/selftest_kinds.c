/* Independent implementation, not proved: self-test of the two kinds of sheets: what the wear
   of a cell means in each, and the order of the checks. */
#include <string.h>

#include "check.h"

#define UNIT 1u                 /* the least positive number */
#define TENTH 0x3DCCCCCDu       /* 13,421,773 x 2^-27, the number nearest to 0.1 */
#define LARGE 0x7F000000u       /* 2^127; MAX is 2^128 - 2^104 */
#define LENGTH 48               /* bytes of the sheet */

static uint8_t s[LENGTH];
static uint32_t lo[7], hi[7];
static size_t rows, columns;

/* A 2 by 3 sheet with the cells (0,1), which is [1, 2], and (1,2). */
static void put_sheet(uint32_t kind, uint32_t lower, uint32_t upper, uint32_t wear)
{
    put_head_of(kind, s, 1, 2, 3, 3);
    put_cell(s + RECORD_BYTES, 2, 0, 1, ONE, TWO, 0);
    put_cell(s + 2 * RECORD_BYTES, 0, 1, 2, lower, upper, wear);
}

static struct refusal read_sheet(void)
{
    fill(lo, 7, UNTOUCHED);
    fill(hi, 7, UNTOUCHED);
    rows = columns = 99;
    return oracle_read(s, LENGTH, lo, 7, hi, 7, &rows, &columns);
}

/* Whether the sheet that is there is refused with this number and place, and nothing is
   written. */
static bool refused(uint32_t number, uint32_t row, uint32_t column)
{
    return is(read_sheet(), number, 0, row, column) && rows == 99 && columns == 99
        && all_are(lo, 7, UNTOUCHED) && all_are(hi, 7, UNTOUCHED);
}

/* Whether the cell (1,2) is refused with this number. */
static bool refuses(uint32_t kind, uint32_t lower, uint32_t upper, uint32_t wear, uint32_t number)
{
    put_sheet(kind, lower, upper, wear);
    return number == 6 ? refused(6, 0, 0) : refused(number, 1, 2);
}

/* Whether the cell (1,2) is read as this one. */
static bool widens(uint32_t kind, uint32_t lower, uint32_t upper, uint32_t wear, uint32_t widened_lower, uint32_t widened_upper)
{
    put_sheet(kind, lower, upper, wear);
    return is(read_sheet(), 0, 0, 0, 0) && rows == 2 && columns == 3 && lo[0] == 0 && hi[0] == 0 && lo[1] == ONE && hi[1] == TWO
        && all_are(lo + 2, 3, 0) && all_are(hi + 2, 3, 0) && lo[5] == widened_lower && hi[5] == widened_upper
        && lo[6] == UNTOUCHED && hi[6] == UNTOUCHED;
}

static void check_amounts_in_cells(void)
{
    const uint32_t zeros[] = {0, NEGATIVE};
    for (int i = 0; i < 2; i++) {
        CHECK(widens(AMOUNT_SHEET, ONE, TWO, zeros[i], ONE, TWO) && widens(AMOUNT_SHEET, NEGATIVE, 0, zeros[i], 0, 0));
        CHECK(widens(AMOUNT_SHEET, NEGATIVE | MAX, MAX, zeros[i], NEGATIVE | MAX, MAX));
    }
    for (uint32_t c = 1; c < 8; c++) {
        uint32_t amount = (127 + c - 11) << 23;
        CHECK(widens(CLASS_SHEET, 0, 0, c, NEGATIVE | amount, amount) && widens(AMOUNT_SHEET, 0, 0, amount, NEGATIVE | amount, amount));
    }
    CHECK(widens(AMOUNT_SHEET, ONE, TWO, TENTH, 0x3F666666, 0x40066667));
    CHECK(widens(AMOUNT_SHEET, NEGATIVE | TWO, NEGATIVE | ONE, TENTH, 0xC0066667, 0xBF666666));
    CHECK(widens(AMOUNT_SHEET, ONE, ONE, UNIT, ONE - 1, ONE + 1) && widens(AMOUNT_SHEET, 0, NEGATIVE, MAX, NEGATIVE | MAX, MAX));
    CHECK(widens(AMOUNT_SHEET, 0x7EFFFFFE, 0x7EFFFFFE, LARGE, 0xF3800000, MAX));    /* bounds of 2^127 - 2^104 */
    CHECK(refuses(AMOUNT_SHEET, 0, 0x7EFFFFFF, LARGE, 5) && refuses(AMOUNT_SHEET, NEGATIVE | 0x7EFFFFFF, 0, LARGE, 5));
    CHECK(refuses(AMOUNT_SHEET, ONE, MAX, UNIT, 5) && refuses(AMOUNT_SHEET, NEGATIVE | MAX, ONE, UNIT, 5));
    CHECK(refuses(AMOUNT_SHEET, 0, UNIT, MAX, 5) && refuses(AMOUNT_SHEET, NEGATIVE | UNIT, 0, MAX, 5));
}

/* In an amount sheet: 14, then 3 of the amount or of a bound, then 4, then 5. */
static void check_amount_order(void)
{
    const uint32_t below_zero[] = {NEGATIVE | UNIT, NEGATIVE | 0x00800000, NEGATIVE | ONE, NEGATIVE | MAX};
    const uint32_t not_finite[] = {INFINITY_PATTERN, 0x7F800001, NAN_PATTERN, 0x7FFFFFFF, 0xFF800000, 0xFF800001, 0xFFC00000, 0xFFFFFFFF};
    for (int i = 0; i < 4; i++) {
        CHECK(refuses(AMOUNT_SHEET, ONE, TWO, below_zero[i], 14) && refuses(AMOUNT_SHEET, NAN_PATTERN, TWO, below_zero[i], 14));
        CHECK(refuses(AMOUNT_SHEET, ONE, INFINITY_PATTERN, below_zero[i], 14) && refuses(AMOUNT_SHEET, TWO, ONE, below_zero[i], 14));
        CHECK(refuses(AMOUNT_SHEET, NEGATIVE | MAX, MAX, below_zero[i], 14));
    }
    for (int i = 0; i < 8; i++) {
        CHECK(refuses(AMOUNT_SHEET, ONE, TWO, not_finite[i], 3) && refuses(AMOUNT_SHEET, TWO, ONE, not_finite[i], 3));
        CHECK(refuses(AMOUNT_SHEET, NEGATIVE | MAX, MAX, not_finite[i], 3) && refuses(AMOUNT_SHEET, not_finite[i], ONE, not_finite[i], 3));
        CHECK(refuses(AMOUNT_SHEET, not_finite[i], ONE, 0, 3) && refuses(AMOUNT_SHEET, ONE, not_finite[i], MAX, 3));
    }
    CHECK(refuses(AMOUNT_SHEET, TWO, ONE, 0, 4) && refuses(AMOUNT_SHEET, MAX, ONE, MAX, 4));
}

/* In a class sheet: 6, then 10, then 3 of a bound, then 4, then 5. No wear gives 14 there, and
   none gives 6 or 10 in an amount sheet, where byte 12 alone makes a few units. */
static void check_class_order(void)
{
    for (uint32_t at = 8; at < 32; at += 8) {
        uint32_t one = UNIT << at, widest = 0xFFu << at;
        CHECK(refuses(CLASS_SHEET, ONE, TWO, one, 6) && refuses(CLASS_SHEET, ONE, TWO, widest, 6));
        CHECK(refuses(CLASS_SHEET, ONE, TWO, one | 8, 6) && refuses(CLASS_SHEET, NAN_PATTERN, TWO, one, 6));
        CHECK(widens(AMOUNT_SHEET, 0, 0, one, NEGATIVE | one, one));
    }
    CHECK(refuses(CLASS_SHEET, ONE, TWO, NEGATIVE, 6) && refuses(CLASS_SHEET, ONE, TWO, NEGATIVE | ONE, 6));
    for (uint32_t c = 8; c < 256; c++)
        CHECK(refuses(CLASS_SHEET, ONE, TWO, c, 10) && widens(AMOUNT_SHEET, NEGATIVE, 0, c, NEGATIVE | c, c));
    CHECK(refuses(CLASS_SHEET, NAN_PATTERN, TWO, 8, 10) && refuses(CLASS_SHEET, NAN_PATTERN, ONE, 7, 3));
    CHECK(refuses(CLASS_SHEET, TWO, ONE, 7, 4) && refuses(CLASS_SHEET, ONE, MAX, 7, 5));
}

/* 6 of the head is the first of all, and 7 and 8 of a cell come before its wear. */
static void check_places(void)
{
    for (uint32_t kind = CLASS_SHEET; kind <= AMOUNT_SHEET; kind++) {
        for (size_t at = 7; at < RECORD_BYTES; at++) {
            put_sheet(kind, ONE, TWO, 0);
            s[at] = 1;
            CHECK(refused(6, 0, 0));
        }
        put_sheet(kind, TWO, ONE, NEGATIVE | ONE);
        s[2 * RECORD_BYTES + 2] = 0;            /* (0,2) after (0,1), then (0,1) again */
        CHECK(kind == CLASS_SHEET ? refused(6, 0, 0) : refused(14, 0, 2));
        s[2 * RECORD_BYTES + 3] = 1;
        CHECK(refused(8, 0, 0));
        s[2 * RECORD_BYTES + 3] = 3;
        CHECK(refused(7, 0, 0));
    }
    for (uint32_t kind = 2; kind < 256; kind++) {
        CHECK(refuses(kind, ONE, TWO, 0, 6));
        s[2] = 33;
        CHECK(refused(6, 0, 0));
    }
}

void check_kinds(void)
{
    check_amounts_in_cells();
    check_amount_order();
    check_class_order();
    check_places();
}
