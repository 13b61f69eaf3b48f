/* Independent implementation, not proved: self-test of the sheet job and of
   the printed product. */
#include <string.h>

#include "check.h"

static uint8_t a[16416], b[16416], out[16401];

/* Makes A a class sheet and B an amount sheet, 1 by 1, of two records, with these cells. */
static void put_cells(uint32_t a_lo, uint32_t a_hi, uint32_t b_lo, uint32_t b_hi)
{
    put_head(a, 1, 1, 1, 2);
    put_cell(a + RECORD_BYTES, 0, 0, 0, a_lo, a_hi, 0);
    put_head_of(AMOUNT_SHEET, b, 1, 1, 1, 2);
    put_cell(b + RECORD_BYTES, 0, 0, 0, b_lo, b_hi, 0);
}

static uint32_t job(uint32_t method, size_t a_len, size_t b_len, size_t out_len)
{
    memset(out, SPARE, sizeof out);
    return oracle_job(method, a, a_len, b, b_len, out, out_len);
}

static bool refuses(uint32_t method, size_t a_len, size_t b_len, size_t out_len,
                    uint32_t expected)
{
    bool untouched = job(method, a_len, b_len, out_len) == expected;
    for (size_t i = 0; i < sizeof out; i++)
        untouched = untouched && out[i] == SPARE;
    return untouched;
}

static void check_job_refusals(void)
{
    put_cells(ONE, TWO, NEGATIVE | ONE, THREE);
    CHECK(refuses(2, 0, 0, 0, 9000000) && refuses(10, 32, 32, 32, 9000000));
    CHECK(refuses(4, 0, 0, 0, 6010000) && refuses(4, 32, 0, 0, 6020000));
    CHECK(refuses(4, 32, 32, 31, 11030000) && refuses(4, 32, 32, 0, 11030000));
    put_head(b, 0, 2, 1, 1);
    CHECK(refuses(4, 32, 16, 0, 1020000));
    put_head(b, 0, 33, 1, 1);
    CHECK(refuses(4, 32, 16, 0, 1020000));
    put_head(a, 0, 1, 0, 1);
    CHECK(refuses(4, 16, 16, 0, 1010000));
    put_cells(MAX, MAX, MAX, MAX);
    CHECK(refuses(4, 32, 32, 0, 5030000));
    a[16 + 12] = 1;
    CHECK(refuses(4, 32, 15, 0, 5010000));
    a[16 + 12] = 8;
    CHECK(refuses(4, 32, 15, 0, 10010000));
    put_head(b, 1, 32, 32, 2);
    put_cell(b + RECORD_BYTES, 0, 31, 30, TWO, ONE, 0);
    CHECK(oracle_job(1, a, 0, NULL, 0, NULL, 0) == 6010000);
    put_head(a, 0, 1, 1, 1);
    CHECK(refuses(1, 16, 32, 0, 4023130));
    put_cell(b + RECORD_BYTES, 0, 32, 30, TWO, ONE, 0);
    CHECK(refuses(1, 16, 32, 0, 7020000));
    put_cell(b + RECORD_BYTES, 1, 31, 31, ONE, TWO, 0);
    CHECK(refuses(1, 16, 32, 0, 8020000));
    put_cell(b + RECORD_BYTES, 0, 31, 31, ONE, INFINITY_PATTERN, 0);
    CHECK(refuses(1, 16, 32, 0, 3023131));
}

void check_job(void)
{
    uint8_t expected[32];
    put_cells(ONE, TWO, NEGATIVE | ONE, THREE);
    CHECK(job(4, 32, 32, 32) == 32);
    put_head_of(AMOUNT_SHEET, expected, 1, 1, 1, 2);
    put_cell(expected + RECORD_BYTES, 0, 0, 0, 0xC0400000, 0x40C00000, 0);
    CHECK(memcmp(out, expected, 32) == 0 && out[32] == SPARE);
    put_head(b, 0, 1, 32, 1);
    CHECK(job(1, 32, 16, sizeof out) == 16 && out[16] == SPARE);
    put_head_of(AMOUNT_SHEET, expected, 0, 1, 32, 1);
    CHECK(memcmp(out, expected, 16) == 0);
    check_job_refusals();
}

static uint8_t input[40000];

/* Whether the input of the digit, a_len bytes of A and b_len bytes of B is printed as
   expected. */
static bool prints(char digit, size_t a_len, size_t b_len, const char *expected)
{
    static char text[40000];
    memset(input, 0xEE, sizeof input);
    input[0] = (uint8_t)digit;
    memcpy(input + 1, a, a_len);
    memcpy(input + 1 + a_len, b, b_len);
    size_t length = oracle_print(input, 1 + a_len + b_len, text, sizeof text);
    return length == strlen(expected) && memcmp(text, expected, length) == 0;
}

static void check_print_refusals(void)
{
    put_cells(ONE, TWO, NEGATIVE | ONE, THREE);
    char text[64];
    CHECK(oracle_print(NULL, 0, text, sizeof text) == 16 && memcmp(text, "refused 9 0 0 0\n", 16) == 0);
    for (const char *other = "02689x\n+ "; *other != 0; other++)
        CHECK(prints(*other, 32, 32, "refused 9 0 0 0\n"));
    CHECK(prints('4', 0, 0, "refused 6 1 0 0\n") && prints('4', 5, 0, "refused 6 1 0 0\n"));
    CHECK(prints('4', 31, 0, "refused 6 1 0 0\n") && prints('4', 32, 0, "refused 6 2 0 0\n"));
    CHECK(prints('4', 32, 31, "refused 6 2 0 0\n") && prints('4', 32, 33, "refused 6 2 0 0\n"));
    put_head(a, 0, 1, 1, 0);
    CHECK(prints('4', 16, 32, "refused 6 1 0 0\n"));
    put_head(a, 0, 1, 2, 1);
    CHECK(prints('4', 16, 32, "refused 1 2 0 0\n"));
    put_cells(MAX, MAX, MAX, MAX);
    CHECK(prints('7', 32, 32, "refused 5 3 0 0\n") && prints('5', 32, 32, "refused 5 3 0 0\n"));
    put_head(b, 1, 1, 32, 2);
    put_cell(b + RECORD_BYTES, 0, 0, 31, TWO, ONE, 0);
    CHECK(prints('7', 32, 32, "refused 4 2 0 31\n"));
}

void check_print(void)
{
    char text[32];
    put_cells(ONE, TWO, NEGATIVE | ONE, THREE);
    CHECK(prints('4', 32, 32, "product 4 1 1\n0 0 C0400000 40C00000\n"));
    CHECK(prints('3', 32, 32, "product 3 1 1\n0 0 C0400004 40C00002\n"));
    CHECK(prints('5', 32, 32, "product 5 1 1\n0 0 C0000006 40C00003\n"));
    CHECK(prints('1', 32, 32, "product 1 1 1\n0 0 C0000000 40C00000\n"));
    CHECK(prints('7', 32, 32, "product 7 1 1\n0 0 C0000000 40C00000\n"));
    memset(text, SPARE, sizeof text);
    CHECK(oracle_print(input, 65, text, 14) == 36 && memcmp(text, "product 7 1 1\n", 14) == 0);
    CHECK(text[14] == SPARE);
    put_head(b, 1, 1, 2, 2);
    put_cell(b + RECORD_BYTES, 0, 0, 1, 1, 1, 0);
    CHECK(prints('1', 32, 32, "product 1 1 2\n0 0 00000000 00000000\n0 1 00000001 00000002\n"));
    check_print_refusals();
    put_head(a, 0, 1, 1, 1025);     /* the two longest sheets, and one byte more */
    put_head(b, 0, 1, 1, 1025);
    memset(a + 16, 0xFF, sizeof a - 16);
    memset(b + 16, 0xFF, sizeof b - 16);
    CHECK(prints('1', 16400, 16400, "product 1 1 1\n0 0 00000000 00000000\n"));
    CHECK(prints('1', 16400, 16401, "refused 6 2 0 0\n"));
    CHECK(prints('1', 16400, 16416, "refused 6 2 0 0\n"));
}
