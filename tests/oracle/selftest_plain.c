/* Independent implementation, not proved: self-test of the plain form, the amount sheet with
   amount zero in each cell that is written: that it reads back, and that the reader from
   before refuses it; and of reads with a load, jobs and trains over both kinds of sheets. */
#include <string.h>

#include "check.h"

#define SHEET ((size_t)32)      /* bytes of a sheet of one cell */

static uint8_t out[16400], sheets[3 * 32];
static uint32_t lo[1024], hi[1024], read_lo[1024], read_hi[1024];
static size_t rows, columns;

/* Whether the bounds of a matrix of as many cells were read. */
static bool reads_back(size_t len, size_t cells)
{
    memset(read_lo, SPARE, sizeof read_lo);
    memset(read_hi, SPARE, sizeof read_hi);
    return is(oracle_read(out, len, read_lo, 1024, read_hi, 1024, &rows, &columns), 0, 0, 0, 0)
        && memcmp(read_lo, lo, 4 * cells) == 0 && memcmp(read_hi, hi, 4 * cells) == 0;
}

/* Matrices of all sizes, every third cell [0, 0]: their sheets read back, and the reader from
   before refuses them. As class sheets they read back too, and it takes them. */
static void check_all_sizes(void)
{
    for (size_t i = 0; i < 1024; i++) {
        lo[i] = i % 3 == 0 ? 0 : NEGATIVE | (uint32_t)i;
        hi[i] = i % 3 == 0 ? 0 : ONE + (uint32_t)i;
    }
    for (size_t m = 1; m <= 32; m++)
        for (size_t n = 1; n <= 32; n++) {
            size_t written = 0;
            memset(out, SPARE, sizeof out);
            CHECK(is(oracle_write(m, n, lo, m * n, hi, m * n, out, sizeof out, &written), 0, 0, 0, 0));
            CHECK(out[6] == 1 && oracle_check_before(out, written) == 6 && reads_back(written, m * n) && rows == m && columns == n);
            out[6] = 0;
            CHECK(oracle_check_before(out, written) == 0 && reads_back(written, m * n) && rows == m && columns == n);
        }
}

/* The bytes of a 2 by 1 matrix with the cell [-1, 2] at (1,0). */
static void check_bytes(void)
{
    const uint8_t expected[32] = {1, 0, 2, 1, 2, 0, 1, 0, 0, 0, 0, 0, 0, 0, 0, 0,
                                  0, 0, 1, 0, 0, 0, 0x80, 0xBF, 0, 0, 0, 0x40, 0, 0, 0, 0};
    const uint32_t lower[2] = {NEGATIVE, NEGATIVE | ONE}, upper[2] = {0, TWO};
    size_t written = 0;
    CHECK(is(oracle_write(2, 1, lower, 2, upper, 2, out, sizeof out, &written), 0, 0, 0, 0));
    CHECK(written == 32 && memcmp(out, expected, 32) == 0);
    for (size_t at = 6; at < 16; at++) {            /* the reader from before: each byte, and the length */
        memset(out + 6, 0, 10);
        CHECK(oracle_check_before(out, 32) == 0 && oracle_check_before(out, 31) == 6 && oracle_check_before(out, 16) == 6);
        out[at] = 1;
        CHECK(oracle_check_before(out, 32) == 6);
    }
}

/* A 1 by 1 sheet at this position, from 0 on. */
static void put(size_t position, uint32_t kind, uint32_t lower, uint32_t upper, uint32_t wear)
{
    put_head_of(kind, sheets + SHEET * position, 1, 1, 1, 2);
    put_cell(sheets + SHEET * position + RECORD_BYTES, 0, 0, 0, lower, upper, wear);
}

/* Whether a read of the first sheet with this load is refused with this number, or with 0
   accepted. */
static bool answers(const uint8_t *load, size_t load_len, uint32_t number)
{
    return is(oracle_read_with(load, load_len, sheets, SHEET, lo, 1, hi, 1, &rows, &columns), number, 0, 0, 0);
}

/* The load is refused first whatever the kind is; then a class sheet is widened by it, and
   an amount sheet by its own amounts. */
static void check_loads(void)
{
    uint8_t load[32] = {0};
    for (size_t c = 1; c < 8; c++)
        put_number(load + 4 * c, TWO, 4);
    put(0, CLASS_SHEET, 0, 0, 1);
    CHECK(answers(load, 32, 0) && lo[0] == (NEGATIVE | TWO) && hi[0] == TWO);
    put(0, AMOUNT_SHEET, 0, 0, 1);
    CHECK(answers(load, 32, 0) && lo[0] == (NEGATIVE | 1) && hi[0] == 1);
    put(0, AMOUNT_SHEET, ONE, TWO, NEGATIVE | ONE);
    CHECK(answers(load, 32, 14) && answers(load, 31, 6));
    put_number(load, ONE, 4);
    CHECK(answers(load, 32, 13));
    put_number(load, INFINITY_PATTERN, 4);
    CHECK(answers(load, 32, 3));
}

/* [1, 1] widened by 1/16, as class 7 or as an amount, and [2, 2] widened by 0 or by 2. */
static void check_mixed(void)
{
    const uint32_t sixteenth = 0x3D800000;
    for (uint32_t kind = CLASS_SHEET; kind <= AMOUNT_SHEET; kind++) {
        put(0, kind, ONE, ONE, kind == CLASS_SHEET ? 7 : sixteenth);
        put(1, AMOUNT_SHEET, TWO, TWO, TWO);
        put(2, 1 - kind, TWO, TWO, 0);
        CHECK(oracle_job(1, sheets, SHEET, sheets + SHEET, SHEET, out, sizeof out) == SHEET && out[6] == 1);
        lo[0] = 0;
        hi[0] = 0x40880000;                         /* [15/16, 17/16] x [0, 4] = [0, 17/4] */
        CHECK(reads_back(SHEET, 1));
        CHECK(oracle_train(1, 3, sheets, 3 * SHEET, out, sizeof out) == SHEET && out[6] == 1);
        hi[0] = 0x41080000;                         /* .. x [2, 2] = [0, 17/2] */
        CHECK(reads_back(SHEET, 1));
        put(1, AMOUNT_SHEET, TWO, TWO, NEGATIVE | TWO);
        CHECK(oracle_job(1, sheets, SHEET, sheets + SHEET, SHEET, out, 0) == 14020000);
        CHECK(oracle_job(1, sheets + SHEET, SHEET, sheets, 0, out, 0) == 14010000);
        CHECK(oracle_train(1, 3, sheets, 3 * SHEET, out, 0) == 14020000);
        put(1, CLASS_SHEET, TWO, TWO, 8);
        CHECK(oracle_job(1, sheets, SHEET, sheets + SHEET, SHEET, out, 0) == 10020000);
        CHECK(oracle_train(1, 3, sheets, 3 * SHEET, out, 0) == 10020000);
    }
}

void check_plain_form(void)
{
    check_all_sizes();
    check_bytes();
    check_loads();
    check_mixed();
}
