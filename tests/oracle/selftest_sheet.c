/* Independent implementation, not proved: self-test of the writer and of reads of class sheets. */
#include <string.h>

#include "check.h"

static uint8_t s[16416];
static uint32_t lo[1025], hi[1025];
static size_t rows, columns;

static struct refusal read_sheet(size_t len)
{
    fill(lo, 1025, UNTOUCHED);
    fill(hi, 1025, UNTOUCHED);
    rows = columns = 99;
    return oracle_read(s, len, lo, 1025, hi, 1025, &rows, &columns);
}

/* Whether the read is refused with this number and place, and writes nothing. */
static bool refuses(size_t len, uint32_t number, uint32_t row, uint32_t column)
{
    return is(read_sheet(len), number, 0, row, column) && rows == 99 && columns == 99
        && all_are(lo, 1025, UNTOUCHED) && all_are(hi, 1025, UNTOUCHED);
}

/* A 2 by 3 sheet of four records: the cells (0,1), (1,0), (1,2) are in records 3, 1, 2. */
static void put_good_sheet(void)
{
    put_head(s, 3, 2, 3, 4);
    put_cell(s + 3 * RECORD_BYTES, 1, 0, 1, ONE, TWO, 0);
    put_cell(s + RECORD_BYTES, 2, 1, 0, NEGATIVE, NEGATIVE, 0);
    put_cell(s + 2 * RECORD_BYTES, 0, 1, 2, ONE, ONE, 7);
}

void check_reading(void)
{
    put_good_sheet();
    CHECK(is(read_sheet(64), 0, 0, 0, 0) && rows == 2 && columns == 3);
    CHECK(lo[1] == ONE && hi[1] == TWO && lo[3] == 0 && hi[3] == 0);
    CHECK(lo[5] == 0x3F700000 && hi[5] == 0x3F880000);          /* 1 -+ 1/16 */
    CHECK(lo[0] == 0 && hi[0] == 0 && lo[6] == UNTOUCHED && hi[6] == UNTOUCHED);
    for (unsigned c = 1; c <= 7; c++) {
        put_cell(s + 2 * RECORD_BYTES, 0, 1, 2, 0, 0, c);
        uint32_t amount = (127 + c - 11) << 23;
        CHECK(is(read_sheet(64), 0, 0, 0, 0) && lo[5] == (NEGATIVE | amount) && hi[5] == amount);
    }
    put_head(s, 0, 32, 32, 1);
    CHECK(is(read_sheet(16), 0, 0, 0, 0) && all_are(lo, 1024, 0) && lo[1024] == UNTOUCHED);
    put_head(s, 0, 1, 1, 2);
    memset(s + 16, 0xFF, 16);                       /* this record is not in the chain */
    CHECK(is(read_sheet(32), 0, 0, 0, 0) && lo[0] == 0 && hi[0] == 0);
    put_head(s, 1, 1, 1, 2);
    put_cell(s + RECORD_BYTES, 0, 0, 0, NEGATIVE | (MAX - 1), MAX - 1, 1);
    CHECK(is(read_sheet(32), 0, 0, 0, 0) && lo[0] == (NEGATIVE | MAX) && hi[0] == MAX);
}

static void check_head_refusals(void)
{
    put_good_sheet();
    CHECK(refuses(0, 6, 0, 0) && refuses(15, 6, 0, 0) && refuses(63, 6, 0, 0));
    CHECK(refuses(48, 6, 0, 0) && refuses(80, 6, 0, 0));
    put_head(s, 0, 1, 1, 1026);
    CHECK(refuses(16416, 6, 0, 0));
    put_head(s, 0, 33, 1, 1);
    CHECK(refuses(16, 1, 0, 0));
    s[15] = 1;
    CHECK(refuses(16, 6, 0, 0));
    put_head(s, 9, 1, 0, 1);
    CHECK(refuses(16, 1, 0, 0));
    put_head(s, 9, 1, 2, 1);
    CHECK(is(oracle_read(s, 16, lo, 1, hi, 2, &rows, &columns), 2, 0, 0, 0));
    CHECK(is(oracle_read(s, 16, lo, 2, hi, 1, &rows, &columns), 2, 0, 0, 0));
    CHECK(refuses(16, 7, 0, 0));
}

void check_read_refusals(void)
{
    check_head_refusals();
    put_good_sheet();
    put_cell(s + 2 * RECORD_BYTES, 4, 1, 2, MAX, MAX, 1);
    CHECK(refuses(64, 5, 1, 2));
    put_cell(s + 2 * RECORD_BYTES, 4, 1, 2, TWO, ONE, 1);
    CHECK(refuses(64, 4, 1, 2));
    put_cell(s + 2 * RECORD_BYTES, 4, 1, 2, TWO, NAN_PATTERN, 7);
    CHECK(refuses(64, 3, 1, 2));
    put_cell(s + 2 * RECORD_BYTES, 4, 1, 2, TWO, NAN_PATTERN, 8);
    CHECK(refuses(64, 10, 1, 2));
    s[16 * 2 + 13] = 1;
    CHECK(refuses(64, 6, 0, 0));
    s[16 * 2 + 2] = 0;                              /* (0,2) after (1,0) */
    CHECK(refuses(64, 8, 0, 0));
    s[16 * 2 + 3] = 3;                              /* (0,3) */
    CHECK(refuses(64, 7, 0, 0));
    put_good_sheet();
    put_cell(s + 2 * RECORD_BYTES, 4, 1, 2, ONE, ONE, 0);           /* an index that is not below the record count */
    CHECK(refuses(64, 7, 0, 0));
    put_cell(s + 2 * RECORD_BYTES, 2, 1, 2, ONE, ONE, 0);           /* a loop */
    CHECK(refuses(64, 8, 0, 0));
    put_cell(s + 2 * RECORD_BYTES, 0, 1, 0, ONE, ONE, 0);           /* the same place twice */
    CHECK(refuses(64, 8, 0, 0));
}

static void check_write_refusals(void)
{
    static uint8_t out[48];
    size_t written = 99;
    uint32_t lower[4] = {ONE, ONE, 0, ONE}, upper[4] = {ONE, ONE, NEGATIVE, ONE};
    memset(out, SPARE, sizeof out);
    CHECK(is(oracle_write(0, 2, lower, 4, upper, 4, out, 48, &written), 1, 0, 0, 0));
    CHECK(is(oracle_write(2, 33, lower, 4, upper, 4, out, 48, &written), 1, 0, 0, 0));
    CHECK(is(oracle_write(2, 2, lower, 4, upper, 3, out, 48, &written), 2, 0, 0, 0));
    CHECK(is(oracle_write(2, 2, lower, 4, upper, 4, out, 48, &written), 11, 0, 0, 0));
    upper[3] = INFINITY_PATTERN;
    CHECK(is(oracle_write(2, 2, lower, 4, upper, 4, out, 0, &written), 3, 0, 1, 1));
    upper[1] = 0;
    CHECK(is(oracle_write(2, 2, lower, 4, upper, 4, out, 48, &written), 4, 0, 0, 1));
    CHECK(written == 0);
    for (size_t i = 0; i < sizeof out; i++)
        CHECK(out[i] == SPARE);
}

void check_writing(void)
{
    static uint8_t out[16401], expected[64];
    const uint32_t lower[5] = {NEGATIVE, NEGATIVE | ONE, NEGATIVE, 1, NAN_PATTERN};
    const uint32_t upper[5] = {0, NEGATIVE, TWO, 1, NAN_PATTERN};
    size_t written = 99;
    memset(out, SPARE, sizeof out);
    CHECK(is(oracle_write(2, 2, lower, 5, upper, 5, out, sizeof out, &written), 0, 0, 0, 0));
    put_head_of(AMOUNT_SHEET, expected, 1, 2, 2, 4);
    put_cell(expected + RECORD_BYTES, 2, 0, 1, NEGATIVE | ONE, 0, 0);
    put_cell(expected + 2 * RECORD_BYTES, 3, 1, 0, 0, TWO, 0);
    put_cell(expected + 3 * RECORD_BYTES, 0, 1, 1, 1, 1, 0);
    CHECK(written == 64 && memcmp(out, expected, 64) == 0 && out[64] == SPARE);
    memcpy(s, out, 64);
    CHECK(is(read_sheet(64), 0, 0, 0, 0) && lo[1] == (NEGATIVE | ONE) && hi[1] == 0);
    CHECK(lo[0] == 0 && hi[0] == 0 && lo[2] == 0 && hi[2] == TWO && lo[3] == 1 && hi[3] == 1);
    fill(lo, 1024, ONE);
    fill(hi, 1024, TWO);
    CHECK(is(oracle_write(32, 32, lo, 1024, hi, 1024, out, 16399, &written), 11, 0, 0, 0));
    CHECK(is(oracle_write(32, 32, lo, 1024, hi, 1024, out, 16400, &written), 0, 0, 0, 0));
    CHECK(written == 16400 && out[16400] == SPARE);
    memcpy(s, out, 16400);
    CHECK(is(read_sheet(16400), 0, 0, 0, 0) && all_are(lo, 1024, ONE) && all_are(hi, 1024, TWO));
    fill(lo, 1024, NEGATIVE);
    fill(hi, 1024, 0);
    CHECK(is(oracle_write(32, 32, lo, 1024, hi, 1024, out, 16, &written), 0, 0, 0, 0));
    put_head_of(AMOUNT_SHEET, expected, 0, 32, 32, 1);
    CHECK(written == 16 && memcmp(out, expected, 16) == 0);
    check_write_refusals();
}
