/* Independent implementation, not proved: self-test of the train. Unless something else
   is said, its sheets are 1 by 1 with one cell, 32 bytes each. */
#include <string.h>

#include "check.h"

#define SHEET ((size_t)32)

static uint8_t sheets[8 * 16400 + 16], out[16401];

/* Puts the cell into the sheet at this position, from 1 on; odd ones are amount sheets. */
static void put(size_t position, uint32_t lo, uint32_t hi)
{
    uint8_t *sheet = sheets + SHEET * (position - 1);
    put_head_of(position % 2 == 1 ? AMOUNT_SHEET : CLASS_SHEET, sheet, 1, 1, 1, 2);
    put_cell(sheet + RECORD_BYTES, 0, 0, 0, lo, hi, 0);
}

/* Sheets of 16 bytes, all cells [0, 0], with these rows and columns. */
static void put_sizes(size_t count, const uint32_t (*sizes)[2])
{
    for (size_t i = 0; i < count; i++)
        put_head(sheets + RECORD_BYTES * i, 0, sizes[i][0], sizes[i][1], 1);
}

static uint32_t train(uint32_t method, uint32_t count, size_t len, size_t out_len)
{
    memset(out, SPARE, sizeof out);
    return oracle_train(method, count, sheets, len, out, out_len);
}

static bool refuses(uint32_t method, uint32_t count, size_t len, size_t out_len, uint32_t expected)
{
    bool untouched = train(method, count, len, out_len) == expected;
    for (size_t i = 0; i < sizeof out; i++)
        untouched = untouched && out[i] == SPARE;
    return untouched;
}

/* Whether so many sheets of one cell give the sheet of this one, in 32 bytes. */
static bool gives(uint32_t method, uint32_t count, uint32_t lo, uint32_t hi)
{
    uint8_t expected[SHEET];
    put_head_of(AMOUNT_SHEET, expected, 1, 1, 1, 2);
    put_cell(expected + RECORD_BYTES, 0, 0, 0, lo, hi, 0);
    return train(method, count, SHEET * count, SHEET) == SHEET
        && memcmp(out, expected, SHEET) == 0 && out[SHEET] == SPARE;
}

static void check_counts(void)
{
    for (size_t position = 1; position <= 9; position++)
        put(position, TWO, TWO);
    CHECK(gives(1, 1, TWO, TWO) && gives(4, 2, FOUR, FOUR) && gives(5, 2, FOUR - 9, FOUR + 5));
    CHECK(gives(7, 8, 0x43800000, 0x43800000));                         /* 2^8 */
    CHECK(refuses(1, 0, 0, 0, 12000000) && refuses(1, 9, 9 * SHEET, SHEET, 12000000));
    CHECK(refuses(3, 0xFFFFFFFF, SHEET, SHEET, 12000000) && refuses(2, 0, 0, 0, 9000000));
    CHECK(oracle_train(7, 9, NULL, 0, NULL, 0) == 12000000);
    CHECK(refuses(6, 1, SHEET, SHEET, 9000000));                        /* though one sheet needs no method */
}

static void check_values(void)
{
    put(1, ONE, TWO);
    put(2, NEGATIVE | ONE, THREE);
    put(3, TWO, THREE);
    CHECK(gives(1, 2, NEGATIVE | TWO, 0x40C00000) && gives(4, 2, NEGATIVE | THREE, 0x40C00000));
    CHECK(gives(1, 3, 0xC0C00000, 0x41900000));                         /* [-2, 6] x [2, 3] = [-6, 18] */
    put(3, TWO, TWO);
    CHECK(gives(4, 3, 0xC0C00000, 0x41400000));                         /* [-3, 6] x [2, 2] = [-6, 12] */
    put(1, 0x3F000000, 0x3F000000);                                     /* from the left: 1/2 x 2 x MAX is MAX */
    put(2, TWO, TWO);
    put(3, MAX, MAX);
    CHECK(gives(1, 3, MAX, MAX));
    put(1, MAX, MAX);                                                   /* but MAX x 2 x 1/2 is refused */
    put(3, 0x3F000000, 0x3F000000);
    CHECK(refuses(1, 3, 3 * SHEET, SHEET, 5090000));
}

/* A sheet alone is written as it was read: widened, amount 0, only cells that are not zero. */
static void check_alone(void)
{
    put_head(sheets, 2, 1, 1, 3);
    memset(sheets + RECORD_BYTES, 0xFF, RECORD_BYTES);
    put_cell(sheets + 2 * RECORD_BYTES, 0, 0, 0, ONE, ONE, 7);
    CHECK(train(4, 1, 48, SHEET) == SHEET && out[4] == 2 && out[SHEET] == SPARE);
    put(1, 0x3F700000, 0x3F880000);                                     /* 1 -+ 1/16 */
    CHECK(memcmp(out, sheets, SHEET) == 0);
    put(1, NEGATIVE, 0);
    CHECK(train(3, 1, SHEET, 16) == 16 && out[2] == 1 && out[4] == 1 && out[16] == SPARE);
    CHECK(refuses(1, 1, 2 * SHEET, SHEET, 6010000) && refuses(1, 1, SHEET + 1, SHEET, 6010000));
    CHECK(refuses(1, 1, 0, SHEET, 6010000) && refuses(1, 1, SHEET, 15, 11090000));
}

/* A sheet is not looked at before its turn: the first two are multiplied before the
   third is read. */
static void check_order(void)
{
    put(1, TWO, TWO);
    put(2, TWO, TWO);
    put(3, TWO, TWO);
    sheets[2 * SHEET + 31] = 0xBF;                                      /* an amount of -0.5 */
    CHECK(refuses(1, 3, 3 * SHEET, 0, 14030000));
    put_head(sheets + SHEET, 1, 1, 2, 2);
    put_cell(sheets + SHEET + RECORD_BYTES, 0, 0, 1, MAX, MAX, 0);
    CHECK(refuses(1, 3, 3 * SHEET, 0, 5090001) && refuses(7, 3, 2 * SHEET, 0, 5090001));
    sheets[SHEET + 28] = 1;
    CHECK(refuses(1, 3, 3 * SHEET, 0, 5020001));
    sheets[6] = 2;
    CHECK(refuses(1, 3, 3 * SHEET, 0, 6010000));
    const uint32_t sizes[4][2] = {{1, 2}, {2, 3}, {3, 4}, {4, 5}}, others[4][2] = {{1, 2}, {2, 3}, {2, 4}, {33, 5}};
    put_sizes(4, sizes);
    CHECK(train(1, 4, 64, 16) == 16 && out[2] == 1 && out[3] == 5 && out[16] == SPARE);
    CHECK(refuses(1, 4, 64, 15, 11090000) && refuses(1, 4, 64, 0, 11090000));
    put_sizes(4, others);
    CHECK(refuses(1, 4, 64, 16, 1030000) && refuses(1, 2, 64, 16, 6020000));
    put_sizes(2, others + 2);
    CHECK(refuses(4, 2, 32, 16, 1020000));
}

/* Where a sheet ends: after 16 bytes for each of its records, the last one with the bytes. */
static void check_ends(void)
{
    put(1, TWO, TWO);
    put(2, TWO, TWO);
    put(3, ONE, ONE);
    CHECK(gives(1, 3, FOUR, FOUR) && refuses(1, 2, 3 * SHEET, SHEET, 6020000));
    CHECK(refuses(1, 3, 3 * SHEET + 1, SHEET, 6030000) && refuses(1, 3, 3 * SHEET + 16, SHEET, 6030000));
    CHECK(refuses(1, 3, 2 * SHEET, SHEET, 6030000) && refuses(1, 3, SHEET + 5, SHEET, 6020000));
    CHECK(refuses(1, 3, SHEET + 6, SHEET, 6020000) && refuses(1, 8, 0, 0, 6010000));
    const uint32_t counts[5][2] = {{3, 6030000}, {500, 6020000}, {0xFFFF, 6020000}, {1, 7020000}, {0, 6020000}};
    for (int i = 0; i < 5; i++) {
        put_number(sheets + SHEET + 4, counts[i][0], 2);
        CHECK(refuses(1, 3, 3 * SHEET, SHEET, counts[i][1]));
    }
    for (size_t i = 0; i < 8; i++) {                                    /* eight of the longest sheets */
        memset(sheets + 16400 * i, 0xFF, 16400);
        put_head(sheets + 16400 * i, 0, 1, 1, 1025);
    }
    CHECK(train(1, 8, 8 * 16400, 16) == 16 && refuses(1, 8, 8 * 16400 + 16, 16, 6080000));
}

void check_train(void)
{
    check_counts();
    check_values();
    check_alone();
    check_order();
    check_ends();
}
