/* Tests of the C functions, not proved: the product of two matrices, with each
   refusal that it can give, zero lengths, and guards around the six lent slices. */
#include "check.h"

#include <string.h>

#define CELLS 4
#define EIGHT 0x41000000u
#define ONE_AND_HALF 0x3FC00000u

/* The slices in the order of the arguments; the first four are read. */
enum { A_LOWERS, A_UPPERS, B_LOWERS, B_UPPERS, A_MIDS, A_RADS, B_MIDS, B_RADS, LOWERS, UPPERS, SLICES };

static uint32_t method, given[4][CELLS], lent[SLICES][2 + CELLS + 2];
static size_t a_rows, a_columns, b_rows, b_columns, lengths[SLICES];

/* 2 by 2 times 2 by 2: each cell of A is [1, 2], and of B [-1, 2]. */
static void set_call(uint32_t m)
{
    const uint32_t bounds[4] = {ONE, TWO, MINUS | ONE, TWO};
    method = m;
    a_rows = a_columns = b_rows = b_columns = 2;
    for (int i = 0; i < SLICES; i++)
        lengths[i] = CELLS;
    for (int i = 0; i < 4 * CELLS; i++)
        given[i / CELLS][i % CELLS] = bounds[i / CELLS];
}

/* The call that is set; two words before and behind each lent slice stay as they were. */
static uint32_t call(void)
{
    memset(lent, GUARD_BYTE, sizeof lent);
    uint32_t r = coupling_product(method, a_rows, a_columns, b_rows, b_columns,
                                  given[A_LOWERS], lengths[A_LOWERS], given[A_UPPERS], lengths[A_UPPERS],
                                  given[B_LOWERS], lengths[B_LOWERS], given[B_UPPERS], lengths[B_UPPERS],
                                  lent[A_MIDS] + 2, lengths[A_MIDS], lent[A_RADS] + 2, lengths[A_RADS],
                                  lent[B_MIDS] + 2, lengths[B_MIDS], lent[B_RADS] + 2, lengths[B_RADS],
                                  lent[LOWERS] + 2, lengths[LOWERS], lent[UPPERS] + 2, lengths[UPPERS]);
    for (int i = A_MIDS; i < SLICES; i++)
        CHECK(untouched(lent[i], 2) && untouched(lent[i] + 2 + CELLS, 2));
    return r;
}

/* The call is refused so, and no word changes. */
static int refused(uint32_t expected)
{
    return call() == expected && untouched(lent[0], COUNT(lent) * COUNT(lent[0]));
}

static int holds(int slice, uint32_t word)
{
    const uint32_t *words = lent[slice] + 2;
    return words[0] == word && words[1] == word && words[2] == word && words[3] == word;
}

static void test_results(void)
{
    set_call(1);
    CHECK(call() == 0 && holds(LOWERS, MINUS | FOUR) && holds(UPPERS, EIGHT));
    CHECK(holds(A_MIDS, GUARD) && holds(A_RADS, GUARD) && holds(B_MIDS, GUARD) && holds(B_RADS, GUARD));
    set_call(4);
    CHECK(call() == 0 && holds(LOWERS, MINUS | 0x40A00000) && holds(UPPERS, EIGHT));
    CHECK(holds(A_MIDS, ONE_AND_HALF) && holds(A_RADS, HALF) && holds(B_MIDS, HALF) && holds(B_RADS, ONE_AND_HALF));
    set_call(3);
    CHECK(call() == 0);
    set_call(5);
    CHECK(call() == 0 && holds(LOWERS, MINUS | (FOUR + 4)) && holds(UPPERS, EIGHT + 2));
    set_call(7);
    CHECK(call() == 0 && holds(LOWERS, MINUS | FOUR) && holds(UPPERS, EIGHT));
}

static void test_methods_and_sizes(void)
{
    const uint32_t unknown[] = {0, 2, 6, 8, 9, 0xFFFFFFFF};
    for (size_t i = 0; i < COUNT(unknown); i++) {
        set_call(unknown[i]);
        CHECK(refused(refusal(9, 0, 0, 0)));
    }
    size_t *const sizes[] = {&a_rows, &a_columns, &b_rows, &b_columns}, wrong[] = {0, 33, SIZE_MAX};
    for (int i = 0; i < 12; i++) {
        set_call(1);
        *sizes[i % 4] = wrong[i / 4];
        CHECK(refused(refusal(1, i % 4 < 2 ? 1 : 2, 0, 0)));
    }
    set_call(1);
    b_rows = 1;
    CHECK(refused(refusal(1, 2, 0, 0)));
}

static void test_lengths(void)
{
    const uint32_t matrix[SLICES] = {1, 1, 2, 2, 0, 0, 0, 0, 3, 3};
    for (int i = 0; i < SLICES; i++) {
        set_call(i % 2 == 0 ? 1 : 4);
        lengths[i] = CELLS - 1;
        CHECK(refused(refusal(2, matrix[i], 0, 0)));
        lengths[i] = 0;
        CHECK(refused(refusal(2, matrix[i], 0, 0)));
    }
}

static void test_cells(void)
{
    const struct {
        int slice, cell;
        uint32_t pattern, expected;
    } cases[] = {
        {A_LOWERS, 0, MINUS | COUPLING_INFINITY, refusal(3, 1, 0, 0)}, {A_UPPERS, 2, COUPLING_INFINITY, refusal(3, 1, 1, 0)},
        {B_LOWERS, 1, COUPLING_INFINITY + 1, refusal(3, 2, 0, 1)},     {B_UPPERS, 3, COUPLING_INFINITY, refusal(3, 2, 1, 1)},
        {A_LOWERS, 3, FOUR, refusal(4, 1, 1, 1)},                      {B_LOWERS, 2, FOUR, refusal(4, 2, 1, 0)},
    };
    for (size_t i = 0; i < COUNT(cases); i++) {
        set_call(7);
        given[cases[i].slice][cases[i].cell] = cases[i].pattern;
        CHECK(refused(cases[i].expected));
    }
}

/* After 5 the result's cells are 0, and the work slices as converted; method 1 leaves these. */
static void test_overflow(void)
{
    const uint32_t methods[] = {1, 3, 4, 5, 7}, mids[CELLS] = {ONE_AND_HALF, ONE_AND_HALF, COUPLING_LARGEST, ONE_AND_HALF};
    for (int i = 0; i < 5; i++) {
        set_call(methods[i]);
        given[A_LOWERS][2] = given[A_UPPERS][2] = COUPLING_LARGEST;
        CHECK(call() == refusal(5, 3, 1, 0) && holds(LOWERS, 0) && holds(UPPERS, 0));
        CHECK(i == 0 ? holds(A_MIDS, GUARD) : memcmp(lent[A_MIDS] + 2, mids, sizeof mids) == 0);
        CHECK(holds(B_RADS, i == 0 ? GUARD : ONE_AND_HALF));
    }
}

void test_product(void)
{
    test_results();
    test_methods_and_sizes();
    test_lengths();
    test_cells();
    test_overflow();
}
