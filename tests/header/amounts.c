/* Tests of the C functions, not proved: a read with loaded amounts, with each
   refusal of a load in its order, zeros of both signs, cells that are widened, and
   guards around what is lent. tests/header/sheets.c has the refusals of a sheet. */
#include "check.h"

#include <string.h>

#include "../oracle/records.h"

static uint8_t load[2 * COUPLING_LOAD_BYTES], sheet[LENGTH];

/* A read with so many bytes of the load, which stay as they were. */
static uint32_t read_loaded(size_t load_len, size_t sheet_len)
{
    uint8_t before[sizeof load];
    memcpy(before, load, sizeof load);
    lend();
    uint32_t r = left(coupling_read_with(load, load_len, sheet, sheet_len, lowers + 2, 8, uppers + 2, 8));
    CHECK(memcmp(before, load, sizeof load) == 0);
    return r;
}

static void put_amounts(const uint32_t *amounts)
{
    for (size_t c = 0; c < 8; c++)
        put_number(load + 4 * c, amounts[c], 4);
}

/* The fixed amounts with another one in this class. */
static void put_fixed_but(size_t c, uint32_t amount)
{
    put_fixed_amounts(load);
    put_number(load + 4 * c, amount, 4);
}

/* What a read returns is this refusal, whatever the sheet and the lent slices are. */
static void refuses(size_t load_len, uint32_t number)
{
    put_sheet(sheet);
    CHECK(read_loaded(load_len, LENGTH) == refusal(number, 0, 0, 0));
    CHECK(read_loaded(load_len, 0) == refusal(number, 0, 0, 0));
    put_cell(sheet + 32, 0, 1, 1, COUPLING_INFINITY, ONE, 8);
    CHECK(read_loaded(load_len, LENGTH) == refusal(number, 0, 0, 0));
    put_amount_sheet(sheet, MINUS | ONE);
    CHECK(read_loaded(load_len, LENGTH) == refusal(number, 0, 0, 0));
    lend();
    CHECK(left(coupling_read_with(load, load_len, sheet, LENGTH, lowers + 2, 0, uppers + 2, 3)) == refusal(number, 0, 0, 0));
}

static void test_refusals(void)
{
    const uint32_t not_finite[] = {COUPLING_INFINITY, MINUS | COUPLING_INFINITY, COUPLING_INFINITY + 1, 0xFFFFFFFF};
    const uint32_t not_zero[] = {1, MINUS | 1, ONE, MINUS | ONE, COUPLING_LARGEST, MINUS | COUPLING_LARGEST};
    memset(load, 0xFF, sizeof load);
    for (size_t length = 0; length <= sizeof load; length++)
        refuses(length, length == COUPLING_LOAD_BYTES ? 3 : 6);
    for (size_t i = 0; i < 8 * COUNT(not_finite); i++) {
        put_fixed_but(i % 8, not_finite[i / 8]);
        refuses(COUPLING_LOAD_BYTES, 3);
        put_number(load + 4 * ((i + 1) % 8), MINUS | ONE, 4); /* 13 too */
        refuses(COUPLING_LOAD_BYTES, 3);
    }
    for (size_t i = 0; i < COUNT(not_zero); i++) {
        put_fixed_but(0, not_zero[i]);
        refuses(COUPLING_LOAD_BYTES, 13);
    }
    for (size_t c = 1; c < 8; c++) {
        put_fixed_but(c, MINUS | 1);
        refuses(COUPLING_LOAD_BYTES, 13);
        put_fixed_but(c - 1, ((127 + (uint32_t)c - 11) << 23) + 1); /* the next number above class c's */
        refuses(COUPLING_LOAD_BYTES, 13);
    }
    put_fixed_amounts(load);
    CHECK(read_loaded(COUPLING_LOAD_BYTES, 0) == refusal(6, 0, 0, 0));
}

/* [-1, 1] of this class is read as [-bound, bound]. */
static void widens(uint32_t c, uint32_t bound)
{
    put_sheet(sheet);
    put_cell(sheet + 32, 0, 1, 1, MINUS | ONE, ONE, c);
    CHECK(read_loaded(COUPLING_LOAD_BYTES, LENGTH) == 202);
    CHECK(lowers[2] == (MINUS | ONE) && uppers[2] == ONE && lowers[5] == (MINUS | bound) && uppers[5] == bound);
}

static void test_widened(void)
{
    const uint32_t zeros[][8] = {{0}, {MINUS, 0, MINUS, 0, 0, MINUS, 0, 0}, {0, MINUS, MINUS, MINUS, MINUS, MINUS, MINUS, MINUS}};
    const uint32_t amounts[] = {MINUS, 1, ONE, ONE, TWO, THREE, COUPLING_LARGEST - 1, COUPLING_LARGEST};
    const uint32_t bounds[] = {ONE, ONE + 1, TWO, TWO, THREE, FOUR, COUPLING_LARGEST};
    for (uint32_t i = 0; i < 8 * COUNT(zeros); i++) {
        put_amounts(zeros[i / 8]);
        widens(i % 8, ONE);
    }
    put_amounts(amounts);
    for (uint32_t c = 0; c < COUNT(bounds); c++)
        widens(c, bounds[c]);
    put_cell(sheet + 32, 0, 1, 1, MINUS | ONE, ONE, 7);
    CHECK(read_loaded(COUPLING_LOAD_BYTES, LENGTH) == refusal(5, 0, 1, 1));
}

/* The load in two records of the sheet that are outside its chain, and the sheet's own
   first bytes as a load. */
static void test_overlap(void)
{
    uint8_t bytes[LENGTH + COUPLING_LOAD_BYTES];
    put_sheet(bytes);
    put_number(bytes + 4, sizeof bytes / 16, 2);
    put_cell(bytes + 16, 2, 0, 0, MINUS | ONE, ONE, 7);
    put_fixed_but(7, TWO);
    memcpy(bytes + LENGTH, load, COUPLING_LOAD_BYTES);
    lend();
    CHECK(left(coupling_read_with(bytes + LENGTH, COUPLING_LOAD_BYTES, bytes, sizeof bytes, lowers + 2, 8, uppers + 2, 8)) == 202);
    CHECK(lowers[2] == (MINUS | THREE) && uppers[2] == THREE && lowers[5] == (MINUS | ONE) && uppers[5] == ONE);
    lend();
    CHECK(left(coupling_read_with(bytes, COUPLING_LOAD_BYTES, bytes, sizeof bytes, lowers + 2, 8, uppers + 2, 8)) == refusal(13, 0, 0, 0));
}

void test_amounts(void)
{
    test_refusals();
    test_widened();
    test_overlap();
}
