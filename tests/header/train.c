/* Tests of the C functions, not proved: the train, with each refusal that it can
   give at each position, zero lengths, and bytes around out. */
#include "check.h"

#include <string.h>

#include "../oracle/records.h"

#define MOST COUPLING_SHEETS_MAX

/* Eight sheets of 2 by 2, and the bytes after them. */
static uint8_t sheets[MOST * LENGTH + 16];

static uint8_t *sheet_at(size_t position)
{
    return sheets + LENGTH * (position - 1);
}

static void put_sheets(void)
{
    for (size_t position = 1; position <= MOST; position++)
        put_sheet(sheet_at(position));
}

static uint8_t bytes[64 + COUPLING_SHEET_MAX + 64];

/* The train with guards around an out of this length: what it writes stays inside
   the length returned, and nothing is written on a refusal. */
static uint32_t guarded(uint32_t method, uint32_t count, size_t length, size_t out_len)
{
    memset(bytes, GUARD_BYTE, sizeof bytes);
    uint32_t r = coupling_train(method, count, sheets, length, bytes + 64, out_len);
    size_t end = COUPLING_REFUSED(r) ? 64 : 64 + r;
    CHECK(COUPLING_REFUSED(r) || r <= out_len);
    for (size_t i = 0; i < sizeof bytes; i++)
        CHECK((i >= 64 && i < end) || bytes[i] == GUARD_BYTE);
    return r;
}

static void test_counts(void)
{
    uint8_t expected[LENGTH];
    put_amount_sheet(expected, 0);
    put_sheets();
    for (uint32_t count = 0; count <= MOST + 1; count++) {
        int known = count >= 1 && count <= MOST;
        CHECK(guarded(1, count, count * LENGTH, LENGTH) == (known ? LENGTH : refusal(12, 0, 0, 0)));
        CHECK(!known || memcmp(bytes + 64, expected, LENGTH) == 0); /* [-1, 1] times [-1, 1] is [-1, 1] */
    }
    CHECK(guarded(1, UINT32_MAX, LENGTH, LENGTH) == refusal(12, 0, 0, 0));
    CHECK(guarded(1, 256 + 1, LENGTH, LENGTH) == refusal(12, 0, 0, 0));
    for (uint32_t method = 0; method < 10; method++) {
        int known = method == 1 || method == 3 || method == 4 || method == 5 || method == 7;
        CHECK(guarded(method, 1, LENGTH, LENGTH) == (known ? LENGTH : refusal(9, 0, 0, 0)));
        CHECK(guarded(method, 0, 0, 0) == refusal(known ? 12 : 9, 0, 0, 0));
    }
}

static void test_damage(void)
{
    const struct {
        uint32_t number, place; /* place 1 is row 1, column 1 */
        size_t at;
        uint32_t value;
        int count;
    } cases[] = {
        {1, 0, 2, 33, 1}, {1, 0, 3, 0, 1}, {3, 1, 36, COUPLING_INFINITY, 4}, {4, 0, 20, COUPLING_LARGEST, 4},
        {6, 0, 6, 2, 1},  {6, 0, 31, 1, 1}, {7, 0, 16, 3, 2}, {8, 0, 32, 1, 2}, {10, 1, 44, 8, 1},
    };
    for (uint32_t position = 1; position <= MOST; position++) {
        for (size_t i = 0; i < COUNT(cases); i++) {
            put_sheets();
            put_number(sheet_at(position) + cases[i].at, cases[i].value, cases[i].count);
            uint32_t expected = refusal(cases[i].number, position, cases[i].place, cases[i].place);
            CHECK(guarded(4, MOST, MOST * LENGTH, COUPLING_SHEET_MAX) == expected);
        }
        put_sheets();
        put_cell(sheet_at(position) + 32, 0, 1, 1, ONE, COUPLING_LARGEST, 1);
        CHECK(guarded(4, MOST, MOST * LENGTH, COUPLING_SHEET_MAX) == refusal(5, position, 1, 1));
    }
    for (uint32_t position = 2; position <= MOST; position++) {
        put_sheets();
        sheet_at(position)[2] = 3;
        CHECK(guarded(1, MOST, MOST * LENGTH, 0) == refusal(1, position, 0, 0));
    }
}

/* One product is too large, and the sheet behind it is wrong: that sheet is not read. */
static void test_overflow(void)
{
    for (uint32_t position = 2; position <= MOST; position++) {
        put_sheets();
        put_cell(sheets + 32, 0, 1, 1, TWO, TWO, 0);
        put_cell(sheet_at(position) + 32, 0, 1, 1, COUPLING_LARGEST, COUPLING_LARGEST, 0);
        memset(sheet_at(position + 1), 0xFF, 16);
        CHECK(guarded(1, MOST, MOST * LENGTH, 0) == refusal(5, 9, 1, 1));
    }
}

/* A sheet alone is returned as it was read: 1 -+ 1/16 for class 7. */
static void test_alone(void)
{
    uint8_t expected[LENGTH];
    put_amount_sheet(expected, 0);
    put_cell(expected + 32, 0, 1, 1, 0x3F700000, 0x3F880000, 0);
    put_sheet(sheets);
    put_cell(sheets + 32, 0, 1, 1, ONE, ONE, 7);
    CHECK(guarded(3, 1, LENGTH, LENGTH) == LENGTH && memcmp(bytes + 64, expected, LENGTH) == 0);
    CHECK(guarded(3, 1, LENGTH, LENGTH - 1) == refusal(11, 9, 0, 0));
    CHECK(guarded(3, 1, LENGTH + 1, LENGTH) == refusal(6, 1, 0, 0));
    CHECK(guarded(3, 1, 2 * LENGTH, LENGTH) == refusal(6, 1, 0, 0));
}

/* The sheets as long as they are, shorter and longer, and no bytes at all. */
static void test_lengths(void)
{
    put_sheets();
    for (size_t length = 0; length < MOST * LENGTH; length++)
        CHECK(guarded(1, MOST, length, LENGTH) == refusal(6, (uint32_t)(length / LENGTH) + 1, 0, 0));
    for (size_t length = MOST * LENGTH + 1; length <= sizeof sheets; length++)
        CHECK(guarded(1, MOST, length, LENGTH) == refusal(6, MOST, 0, 0));
    for (size_t room = 0; room < LENGTH; room++)
        CHECK(guarded(1, MOST, MOST * LENGTH, room) == refusal(11, 9, 0, 0));
    CHECK(guarded(1, 1, 0, 0) == refusal(6, 1, 0, 0) && guarded(1, 2, LENGTH, 0) == refusal(6, 2, 0, 0));
    put_number(sheet_at(2) + 4, 0, 2);
    CHECK(guarded(1, MOST, MOST * LENGTH, LENGTH) == refusal(6, 2, 0, 0));
    put_number(sheet_at(2) + 4, 0xFFFF, 2);
    CHECK(guarded(1, MOST, MOST * LENGTH, LENGTH) == refusal(6, 2, 0, 0));
}

void test_train(void)
{
    test_counts();
    test_damage();
    test_overflow();
    test_alone();
    test_lengths();
}
