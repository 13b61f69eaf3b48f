/* Tests of the C functions, not proved: the two kinds of a sheet. Each value of the
   kind; amounts in cells, with each refusal in its order; jobs and trains of sheets
   of both kinds, and the kind that they write. */
#include "check.h"

#include <string.h>

#include "../oracle/records.h"

#define LARGEST COUPLING_LARGEST
#define INFINITE COUPLING_INFINITY
#define BELOW_ZERO (MINUS | 1) /* the greatest number below zero */
#define SIXTEENTH 0x3D800000u  /* 1/16, the fixed amount of class 7 */
#define MOST COUPLING_SHEETS_MAX

/* A read of the sheet of 2 by 2. A load that is accepted does not change it where the
   cells have amounts. */
static uint32_t read_sheet(const uint8_t *sheet)
{
    uint8_t load[COUPLING_LOAD_BYTES] = {0};
    for (size_t c = 1; c < 8; c++)
        put_number(load + 4 * c, TWO, 4);
    return read_alike(load, sheet, LENGTH, 8, 8);
}

static void test_kind(void)
{
    uint8_t s[LENGTH];
    for (uint32_t kind = 0; kind < 256; kind++) {
        int known = kind == COUPLING_KIND_CLASS || kind == COUPLING_KIND_AMOUNT;
        put_sheet(s);
        s[6] = (uint8_t)kind;
        CHECK(read_sheet(s) == (known ? 202 : refusal(6, 0, 0, 0)));
        s[2] = 0;
        CHECK(read_sheet(s) == refusal(known ? 1 : 6, 0, 0, 0));
    }
    for (size_t at = 7; at < 16; at++) {
        put_amount_sheet(s, 0);
        s[at] = 1;
        CHECK(read_sheet(s) == refusal(6, 0, 0, 0));
    }
    put_amount_sheet(s, SIXTEENTH);
    CHECK(read_sheet(s) == 202 && lowers[5] == (MINUS | 0x3F880000) && uppers[5] == 0x3F880000);
    s[6] = COUPLING_KIND_CLASS;
    CHECK(read_sheet(s) == refusal(6, 0, 0, 0));
}

/* The amounts by which [-1, 1] is read as [-bound, bound]. */
static void test_widened(void)
{
    const uint32_t amounts[][2] = {
        {0, ONE}, {MINUS, ONE}, {1, ONE + 1}, {7, ONE + 1}, {ONE, TWO}, {TWO, THREE}, {THREE, FOUR}, {LARGEST - 1, LARGEST},
    };
    uint8_t s[LENGTH];
    for (size_t i = 0; i < COUNT(amounts); i++) {
        put_amount_sheet(s, amounts[i][0]);
        CHECK(read_sheet(s) == 202 && lowers[2] == (MINUS | ONE) && uppers[2] == ONE);
        CHECK(lowers[5] == (MINUS | amounts[i][1]) && uppers[5] == amounts[i][1]);
    }
}

/* Bounds and amount of a cell, and the refusal of it: 14, then 3, 4, 5. */
static void test_refusals(void)
{
    const uint32_t cases[][4] = {
        {ONE, ONE, BELOW_ZERO, 14}, {ONE, ONE, MINUS | ONE, 14},  {ONE, ONE, MINUS | LARGEST, 14}, {INFINITE, ONE, BELOW_ZERO, 14},
        {ONE, INFINITE, MINUS | ONE, 14}, {TWO, ONE, BELOW_ZERO, 14}, {ONE, LARGEST, MINUS | ONE, 14}, {ONE, ONE, INFINITE, 3},
        {ONE, ONE, MINUS | INFINITE, 3}, {ONE, ONE, INFINITE + 1, 3}, {ONE, ONE, 0xFFFFFFFF, 3}, {INFINITE, ONE, 0, 3},
        {ONE, MINUS | INFINITE, ONE, 3}, {TWO, ONE, INFINITE, 3}, {TWO, ONE, 0, 4}, {TWO, ONE, MINUS, 4},
        {TWO, ONE, LARGEST, 4}, {ONE, LARGEST, 1, 5}, {MINUS | LARGEST, ONE, 1, 5}, {ONE, ONE, LARGEST, 5},
        {MINUS | LARGEST, LARGEST, 0, 0}, {MINUS | LARGEST, LARGEST, MINUS, 0}, {0, MINUS, LARGEST, 0},
    };
    uint8_t s[LENGTH];
    for (size_t i = 0; i < COUNT(cases); i++) {
        put_amount_sheet(s, cases[i][2]);
        put_number(s + 36, cases[i][0], 4);
        put_number(s + 40, cases[i][1], 4);
        CHECK(read_sheet(s) == (cases[i][3] ? refusal(cases[i][3], 0, 1, 1) : 202));
    }
    put_amount_sheet(s, BELOW_ZERO);
    s[34] = 2;
    CHECK(read_sheet(s) == refusal(7, 0, 0, 0));
    s[34] = s[35] = 0;
    CHECK(read_sheet(s) == refusal(8, 0, 0, 0));
}

/* The 2 by 2 sheet with class 7 in a cell, or with the amount that class 7 has. */
static void put_either(uint8_t *s, int has_amounts)
{
    put_amount_sheet(s, has_amounts ? SIXTEENTH : 7);
    s[6] = has_amounts ? COUPLING_KIND_AMOUNT : COUPLING_KIND_CLASS;
}

/* Trains of eight sheets, of each kind at each position: the same ranges are written, with
   amount zero. So it is with the first two as a job. */
static void test_mixed(void)
{
    uint8_t s[MOST][LENGTH], expected[2][LENGTH], out[2][LENGTH];
    for (int kinds = 0; kinds < 1 << MOST; kinds++) {
        for (int i = 0; i < MOST; i++)
            put_either(s[i], kinds >> i & 1);
        CHECK(coupling_train(1, MOST, s[0], sizeof s, out[0], LENGTH) == LENGTH);
        CHECK(coupling_multiply(1, s[0], LENGTH, s[1], LENGTH, out[1], LENGTH) == LENGTH);
        if (kinds == 0)
            memcpy(expected, out, sizeof out);
        CHECK(memcmp(out, expected, sizeof out) == 0);
    }
    for (int i = 0; i < 2; i++) {
        put_amount_sheet(s[0], 0);
        memcpy(s[0] + 36, out[i] + 36, 8); /* the bounds of the cell that was widened */
        CHECK(memcmp(out[i], s[0], LENGTH) == 0);
    }
}

static void test_named(void)
{
    uint8_t s[MOST][LENGTH], out[LENGTH] = {0}, before[LENGTH] = {0};
    for (uint32_t position = 1; position <= MOST; position++) {
        for (uint32_t i = 0; i < MOST; i++)
            put_either(s[i], i % 2);
        put_amount_sheet(s[position - 1], BELOW_ZERO);
        CHECK(coupling_train(4, MOST, s[0], sizeof s, out, LENGTH) == refusal(14, position, 1, 1));
        if (position <= 2)
            CHECK(coupling_multiply(4, s[0], LENGTH, s[1], LENGTH, out, LENGTH) == refusal(14, position, 1, 1));
    }
    CHECK(memcmp(out, before, LENGTH) == 0);
}

void test_kinds(void)
{
    test_kind();
    test_widened();
    test_refusals();
    test_mixed();
    test_named();
}
