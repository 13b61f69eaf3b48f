/* Tests of the C functions, not proved: reader and writer of sheets, with each
   refusal that they can give, zero lengths, and guards around what is lent. Sheets
   that are read are class sheets here; tests/header/kinds.c has the others. */
#include "check.h"

#include <string.h>

#include "../oracle/records.h"

/* ---- the reader, on the sheet of 2 by 2 */

/* A read into slices of these lengths. With the fixed amounts loaded it is the same. */
static uint32_t read_guarded(const uint8_t *sheet, size_t length, size_t lowers_len, size_t uppers_len)
{
    uint8_t load[COUPLING_LOAD_BYTES];
    put_fixed_amounts(load);
    return read_alike(load, sheet, length, lowers_len, uppers_len);
}

static void test_read(void)
{
    const struct {
        uint32_t expected;
        size_t at;
        uint32_t value;
        int count;
    } cases[] = {
        {refusal(1, 0, 0, 0), 2, 0, 1},
        {refusal(1, 0, 0, 0), 3, 33, 1},
        {refusal(3, 0, 1, 1), 40, COUPLING_INFINITY, 4},
        {refusal(4, 0, 0, 0), 20, TWO, 4},
        {refusal(6, 0, 0, 0), 4, 4, 2},
        {refusal(6, 0, 0, 0), 15, 1, 1},
        {refusal(6, 0, 0, 0), 47, 1, 1},
        {refusal(7, 0, 0, 0), 0, 3, 2},
        {refusal(7, 0, 0, 0), 34, 2, 1},
        {refusal(8, 0, 0, 0), 32, 1, 2},
        {refusal(10, 0, 1, 1), 44, 8, 1},
    };
    uint8_t s[LENGTH];
    for (size_t i = 0; i < COUNT(cases); i++) {
        put_sheet(s);
        put_number(s + cases[i].at, cases[i].value, cases[i].count);
        CHECK(read_guarded(s, LENGTH, 8, 8) == cases[i].expected);
    }
    put_sheet(s);
    put_cell(s + 16, 2, 0, 0, ONE, COUPLING_LARGEST, 1);
    CHECK(read_guarded(s, LENGTH, 8, 8) == refusal(5, 0, 0, 0));
}

static void test_read_lengths(void)
{
    const uint32_t below[] = {MINUS | ONE, 0, 0, MINUS | ONE}, above[] = {ONE, 0, 0, ONE};
    uint8_t s[LENGTH];
    put_sheet(s);
    CHECK(read_guarded(s, LENGTH, 4, 8) == 202 && read_guarded(s, LENGTH, 8, 4) == 202);
    CHECK(memcmp(lowers + 2, below, sizeof below) == 0 && memcmp(uppers + 2, above, sizeof above) == 0);
    CHECK(read_guarded(s, LENGTH, 3, 4) == refusal(2, 0, 0, 0) && read_guarded(s, LENGTH, 4, 3) == refusal(2, 0, 0, 0));
    CHECK(read_guarded(s, LENGTH, 0, 4) == refusal(2, 0, 0, 0) && read_guarded(s, LENGTH, 4, 0) == refusal(2, 0, 0, 0));
    CHECK(read_guarded(s, LENGTH - 1, 4, 4) == refusal(6, 0, 0, 0) && read_guarded(s, 0, 0, 0) == refusal(6, 0, 0, 0));
}

/* ---- the writer */

static uint32_t low[4], high[4];
static uint8_t bytes[16 + LENGTH + 16];

static uint32_t write_guarded(size_t rows, size_t columns, size_t lowers_len, size_t uppers_len, size_t out_len)
{
    memset(bytes, GUARD_BYTE, sizeof bytes);
    uint32_t r = coupling_write(rows, columns, low, lowers_len, high, uppers_len, bytes + 16, out_len);
    size_t end = COUPLING_REFUSED(r) ? 16 : 16 + r;
    CHECK(COUPLING_REFUSED(r) || r <= out_len);
    for (size_t i = 0; i < sizeof bytes; i++)
        CHECK((i >= 16 && i < end) || bytes[i] == GUARD_BYTE);
    return r;
}

/* The matrix of put_sheet with this cell in row 1 and column 0. */
static void put_matrix(uint32_t lower, uint32_t upper)
{
    const uint32_t below[] = {MINUS | ONE, 0, lower, MINUS | ONE}, above[] = {ONE, 0, upper, ONE};
    memcpy(low, below, sizeof low);
    memcpy(high, above, sizeof high);
}

static void test_write(void)
{
    uint8_t s[LENGTH];
    put_amount_sheet(s, 0);
    put_matrix(MINUS, 0);
    CHECK(write_guarded(2, 2, 4, 4, LENGTH) == LENGTH && memcmp(bytes + 16, s, LENGTH) == 0);
    CHECK(write_guarded(2, 2, 4, 4, LENGTH - 1) == refusal(11, 0, 0, 0) && write_guarded(2, 2, 4, 4, 0) == refusal(11, 0, 0, 0));
    CHECK(write_guarded(0, 2, 4, 4, LENGTH) == refusal(1, 0, 0, 0) && write_guarded(2, 0, 4, 4, LENGTH) == refusal(1, 0, 0, 0));
    CHECK(write_guarded(33, 1, 4, 4, LENGTH) == refusal(1, 0, 0, 0) && write_guarded(1, 33, 4, 4, 0) == refusal(1, 0, 0, 0));
    CHECK(write_guarded(2, 2, 3, 4, LENGTH) == refusal(2, 0, 0, 0) && write_guarded(2, 2, 4, 3, LENGTH) == refusal(2, 0, 0, 0));
    CHECK(write_guarded(2, 2, 0, 0, 0) == refusal(2, 0, 0, 0));
    put_matrix(ONE, COUPLING_INFINITY);
    CHECK(write_guarded(2, 2, 4, 4, LENGTH) == refusal(3, 0, 1, 0));
    put_matrix(TWO, ONE);
    CHECK(write_guarded(2, 2, 4, 4, LENGTH) == refusal(4, 0, 1, 0));
}

void test_sheets(void)
{
    test_read();
    test_read_lengths();
    test_write();
}
