/* Test of the C functions, not proved: macros, then each function with every
   refusal that it can give, zero lengths and guards around what is lent, calls at
   the same time, and the floating-point environment. Prints what was checked;
   fails at the first check that does not hold. */
#include "check.h"

#include <stdio.h>
#include <stdlib.h>
#include <string.h>

#include "../oracle/records.h"
#include "coupling_sentences.h"

void check(int holds, const char *text, const char *file, int line)
{
    if (holds)
        return;
    printf("%s, line %d: %s does not hold\n", file, line, text);
    exit(1);
}

uint32_t refusal(uint32_t number, uint32_t matrix, uint32_t row, uint32_t column)
{
    return 1000000 * number + 10000 * matrix + 100 * row + column;
}

int untouched(const uint32_t *words, size_t count)
{
    while (count > 0 && words[count - 1] == GUARD)
        count--;
    return count == 0;
}

void put_sheet(uint8_t *sheet)
{
    put_head(sheet, 1, 2, 2, 3);
    put_cell(sheet + 16, 2, 0, 0, MINUS | ONE, ONE, 0);
    put_cell(sheet + 32, 0, 1, 1, MINUS | ONE, ONE, 0);
}

void put_amount_sheet(uint8_t *sheet, uint32_t amount)
{
    put_sheet(sheet);
    sheet[6] = COUPLING_KIND_AMOUNT;
    put_number(sheet + 44, amount, 4);
}

void put_fixed_amounts(uint8_t *load)
{
    memset(load, 0, 4);
    for (uint32_t c = 1; c < 8; c++)
        put_number(load + 4 * c, (127 + c - 11) << 23, 4); /* 2^(c - 11) */
}

uint32_t lowers[ROOM], uppers[ROOM];

void lend(void)
{
    memset(lowers, GUARD_BYTE, sizeof lowers);
    memset(uppers, GUARD_BYTE, sizeof uppers);
}

uint32_t left(uint32_t r)
{
    size_t from = COUPLING_REFUSED(r) ? 2 : 6;
    CHECK(untouched(lowers, 2) && untouched(lowers + from, ROOM - from));
    CHECK(untouched(uppers, 2) && untouched(uppers + from, ROOM - from));
    return r;
}

uint32_t read_alike(const uint8_t *load, const uint8_t *sheet, size_t length, size_t lowers_len, size_t uppers_len)
{
    uint32_t below[ROOM], above[ROOM];
    lend();
    uint32_t r = left(coupling_read_with(load, COUPLING_LOAD_BYTES, sheet, length, lowers + 2, lowers_len, uppers + 2, uppers_len));
    memcpy(below, lowers, sizeof below);
    memcpy(above, uppers, sizeof above);
    lend();
    CHECK(left(coupling_read(sheet, length, lowers + 2, lowers_len, uppers + 2, uppers_len)) == r);
    CHECK(memcmp(lowers, below, sizeof below) == 0 && memcmp(uppers, above, sizeof above) == 0);
    return r;
}

static void test_macros(void)
{
    const uint32_t r = refusal(10, 2, 31, 7);
    CHECK(COUPLING_REFUSED(r) && COUPLING_REFUSED(refusal(1, 0, 0, 0)));
    CHECK(!COUPLING_REFUSED((uint32_t)COUPLING_SHEET_MAX) && !COUPLING_REFUSED(3232u) && !COUPLING_REFUSED(0u));
    CHECK(COUPLING_NUMBER(r) == COUPLING_CLASS && COUPLING_MATRIX(r) == 2);
    CHECK(COUPLING_ROW(r) == 31 && COUPLING_COLUMN(r) == 7);
    CHECK(COUPLING_READ_ROWS(3201u) == 32 && COUPLING_READ_COLUMNS(132u) == 32 && COUPLING_READ_COLUMNS(3201u) == 1);
    CHECK(COUPLING_CELLS_MAX == COUPLING_SIZE_MAX * COUPLING_SIZE_MAX && COUPLING_SHEET_MAX == 16 * (COUPLING_CELLS_MAX + 1));
    CHECK(COUPLING_INFINITY == COUPLING_LARGEST + 1);
    CHECK(!COUPLING_OPERATION_REFUSED(COUPLING_LARGEST) && !COUPLING_OPERATION_REFUSED(MINUS | COUPLING_LARGEST));
    CHECK(COUPLING_OPERATION_REFUSED(COUPLING_INFINITY + 5) && COUPLING_OPERATION_NUMBER(COUPLING_INFINITY + 5) == 5);
    for (uint32_t n = COUPLING_SIZE; n <= COUPLING_BELOW_ZERO; n++)
        CHECK(strcmp(coupling_sentence(n), coupling_sentence(0)) != 0);
    CHECK(COUPLING_AMOUNTS == 13 && COUPLING_BELOW_ZERO == 14 && strcmp(coupling_sentence(15), coupling_sentence(0)) == 0);
    CHECK(COUPLING_LOAD_BYTES == 8 * sizeof(uint32_t) && COUPLING_KIND_CLASS == 0 && COUPLING_KIND_AMOUNT == 1);
    CHECK(COUPLING_RUNNING_AMOUNTS + 8 == COUPLING_RUNNING_WORDS && COUPLING_PAIRS_MAX == COUPLING_SIZE_MAX);
}

int main(void)
{
    test_macros();
    test_job();
    test_train();
    test_sheets();
    test_amounts();
    test_kinds();
    test_product();
    test_running();
    test_gauging();
    test_operations();
    test_conversions();
    test_surroundings();
    printf("23 functions: macros, each refusal, zero lengths, guards, two threads, floating-point environment\n");
    return 0;
}
