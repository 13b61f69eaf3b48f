/* Independent implementation, not proved: self-test of loads, the wear amounts of a mill,
   and of reads with them. */
#include <string.h>

#include "check.h"

#define LOAD 32                 /* bytes of a load */
#define UNIT 1u                 /* the least positive number */
#define TENTH 0x3DCCCCCDu       /* 13,421,773 x 2^-27, the number nearest to 0.1 */
#define LARGE 0x7F000000u       /* 2^127; MAX is 2^128 - 2^104 */

static uint8_t load[64], s[16400];
static uint32_t lo[1025], hi[1025];
static size_t rows, columns;

static const uint32_t good[8] = {0, TENTH, ONE, TWO, THREE, FOUR, LARGE, MAX};

static void put_load(const uint32_t amounts[8])
{
    for (int c = 0; c < 8; c++)
        put_number(load + 4 * c, amounts[c], 4);
}

/* A 2 by 3 sheet of 32 bytes whose one cell is at (1,2). */
static void put_one_cell(uint32_t lower, uint32_t upper, uint32_t wear_class)
{
    put_head(s, 1, 2, 3, 2);
    put_cell(s + RECORD_BYTES, 0, 1, 2, lower, upper, wear_class);
}

static struct refusal read_with(size_t load_len, size_t len)
{
    rows = columns = 99;
    fill(lo, 1025, UNTOUCHED);
    fill(hi, 1025, UNTOUCHED);
    return oracle_read_with(load, load_len, s, len, lo, 1025, hi, 1025, &rows, &columns);
}

/* Whether the read is refused with this number and place, and writes nothing. */
static bool refuses(size_t load_len, size_t len, uint32_t number, uint32_t row, uint32_t column)
{
    struct refusal refusal = read_with(load_len, len);
    bool untouched = all_are(lo, 1025, UNTOUCHED) && all_are(hi, 1025, UNTOUCHED);
    return is(refusal, number, 0, row, column) && untouched && rows == 99 && columns == 99;
}

/* Whether the load of the good amounts, with this one for the class, passes (0) or is
   refused with this number. */
static bool one_gives(int wear_class, uint32_t amount, uint32_t number)
{
    put_load(good);
    put_number(load + 4 * wear_class, amount, 4);
    return oracle_check_amounts(load, LOAD) == number;
}

static bool all_give(const uint32_t amounts[8], uint32_t number)
{
    put_load(amounts);
    return oracle_check_amounts(load, LOAD) == number;
}

static void check_order(void)
{
    const uint32_t zeros[8] = {NEGATIVE, 0, NEGATIVE, NEGATIVE, 0, 0, NEGATIVE, UNIT};
    const uint32_t equal[8] = {0, ONE, ONE, ONE, ONE, MAX, MAX, MAX};
    CHECK(all_give(good, 0) && all_give(zeros, 0) && all_give(equal, 0));
    CHECK(one_gives(0, UNIT, 13) && one_gives(0, TENTH, 13) && one_gives(0, MAX, 13));
    CHECK(one_gives(0, NEGATIVE | UNIT, 13) && one_gives(0, NEGATIVE | MAX, 13) && one_gives(0, NEGATIVE, 0));
    CHECK(one_gives(1, 0, 0) && one_gives(1, NEGATIVE, 0) && one_gives(1, NEGATIVE | UNIT, 13));
    for (int c = 2; c < 8; c++) {
        CHECK(one_gives(c, good[c - 1], 0) && one_gives(c, good[c - 1] - 1, 13));
        CHECK(one_gives(c, 0, 13) && one_gives(c, NEGATIVE, 13) && one_gives(c, NEGATIVE | good[c], 13));
    }
}

void check_amounts(void)
{
    const uint32_t not_finite[] = {INFINITY_PATTERN, 0x7F800001, NAN_PATTERN, NEGATIVE | INFINITY_PATTERN, 0xFFFFFFFF};
    const uint32_t descending[8] = {ONE, 0, 0, 0, 0, 0, 0, INFINITY_PATTERN};
    check_order();
    for (int c = 0; c < 8; c++)
        for (int i = 0; i < 5; i++)
            CHECK(one_gives(c, not_finite[i], 3));
    CHECK(all_give(descending, 3));                 /* 3 before 13 */
    for (size_t len = 0; len <= 64; len++)          /* 6 before 3 */
        CHECK(oracle_check_amounts(load, len) == (len == LOAD ? 3 : 6));
}

/* The load is refused before the sheet is looked at. */
static void check_load_first(void)
{
    put_one_cell(TWO, ONE, 1);
    put_load(good);
    CHECK(refuses(0, 32, 6, 0, 0) && refuses(31, 32, 6, 0, 0) && refuses(33, 32, 6, 0, 0) && refuses(64, 32, 6, 0, 0));
    CHECK(refuses(LOAD, 32, 4, 1, 2) && refuses(LOAD, 31, 6, 0, 0));
    put_number(load, ONE, 4);
    CHECK(refuses(LOAD, 32, 13, 0, 0) && refuses(LOAD, 0, 13, 0, 0) && refuses(LOAD, 31, 13, 0, 0));
    CHECK(is(oracle_read_with(load, LOAD, s, 32, lo, 0, hi, 0, &rows, &columns), 13, 0, 0, 0));
    put_number(load + 28, NAN_PATTERN, 4);
    CHECK(refuses(LOAD, 32, 3, 0, 0) && refuses(LOAD, 0, 3, 0, 0) && refuses(33, 0, 6, 0, 0));
    put_load(good);
    CHECK(is(oracle_read_with(load, LOAD, s, 32, lo, 6, hi, 5, &rows, &columns), 2, 0, 0, 0));
    put_one_cell(NAN_PATTERN, ONE, 8);
    CHECK(refuses(LOAD, 32, 10, 1, 2));
}

/* Whether a cell with these bounds and this class is read as this one. */
static bool widens(uint32_t lower, uint32_t upper, uint32_t wear_class, uint32_t widened_lower, uint32_t widened_upper)
{
    put_one_cell(lower, upper, wear_class);
    return is(read_with(LOAD, 32), 0, 0, 0, 0) && rows == 2 && columns == 3 && all_are(lo, 5, 0) && all_are(hi, 5, 0)
        && lo[5] == widened_lower && hi[5] == widened_upper && lo[6] == UNTOUCHED && hi[6] == UNTOUCHED;
}

static bool overflows(uint32_t lower, uint32_t upper, uint32_t wear_class)
{
    put_one_cell(lower, upper, wear_class);
    return refuses(LOAD, 32, 5, 1, 2);
}

static void check_widened(void)
{
    put_load(good);
    CHECK(widens(ONE, TWO, 1, 0x3F666666, 0x40066667));     /* 15,099,494.375 x 2^-24 and 8,808,038.40625 x 2^-22 */
    CHECK(widens(NEGATIVE | TWO, NEGATIVE | ONE, 1, 0xC0066667, 0xBF666666));
    for (uint32_t c = 1; c < 8; c++)
        CHECK(widens(NEGATIVE, 0, c, NEGATIVE | good[c], good[c]));
    CHECK(widens(ONE, TWO, 0, ONE, TWO) && widens(ONE, ONE, 3, NEGATIVE | ONE, THREE));
    CHECK(overflows(0, UNIT, 7) && overflows(NEGATIVE | UNIT, 0, 7) && overflows(ONE, ONE, 7));
    CHECK(widens(NEGATIVE | 0x7EFFFFFE, 0x7EFFFFFE, 6, NEGATIVE | MAX, MAX));   /* bounds of 2^127 - 2^104 */
    CHECK(widens(0x7EFFFFFE, 0x7EFFFFFE, 6, 0xF3800000, MAX));                  /* the lower one becomes -2^104 */
    CHECK(overflows(0, 0x7EFFFFFF, 6) && overflows(NEGATIVE | 0x7EFFFFFF, 0, 6));
    memset(load, 0, LOAD);
    CHECK(widens(ONE, TWO, 7, ONE, TWO) && widens(NEGATIVE | MAX, MAX, 7, NEGATIVE | MAX, MAX));
    put_number(load + 28, NEGATIVE, 4);             /* an amount of minus zero */
    CHECK(widens(ONE, TWO, 7, ONE, TWO) && widens(NEGATIVE, NEGATIVE, 7, 0, 0));
}

void check_reading_with(void)
{
    static uint32_t fixed_lo[1025], fixed_hi[1025];
    const uint32_t fixed[8] = {0, 0x3A800000, 0x3B000000, 0x3B800000, 0x3C000000, 0x3C800000, 0x3D000000, 0x3D800000};
    check_load_first();
    check_widened();
    put_load(fixed);
    put_full(s);
    CHECK(is(oracle_read(s, sizeof s, fixed_lo, 1025, fixed_hi, 1025, &rows, &columns), 0, 0, 0, 0));
    CHECK(is(read_with(LOAD, sizeof s), 0, 0, 0, 0) && rows == 32 && columns == 32 && lo[1024] == UNTOUCHED);
    CHECK(memcmp(lo, fixed_lo, 4096) == 0 && memcmp(hi, fixed_hi, 4096) == 0);
}
