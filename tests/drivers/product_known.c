/* Test driver of products, not proved: products with a known result, of 1 by 1 matrices
   and of the largest ones; product_sums.c has those of a row by a column. */
#include "product_known.h"

#include <stdio.h>

#include "numbers.h"
#include "oracle.h"
#include "product_call.h"

/* [al, au] times [bl, bu] is [lo, up]; the midpoint and radius of A, in the work slices,
   are ma and ra, unless the method is 1. */
static const struct known {
    const char *name;
    uint32_t method, al, au, bl, bu, lo, up, ma, ra;
} known[] = {
    {"[0, 2] x [0, 2]", 4, 0, TWO, 0, TWO, SIGN | TWO, 0x40800000, ONE, ONE},
    {"[0, 2] x [0, 2]", 1, 0, TWO, 0, TWO, 0, 0x40800000, 0, 0},
    {"[0, 2] x [0, 2]", 7, 0, TWO, 0, TWO, 0, 0x40800000, ONE, ONE},
    {"[1, 2] x [-1, 3]", 1, ONE, TWO, SIGN | ONE, 0x40400000, SIGN | TWO, 0x40C00000, 0, 0},
    {"[2, 3] x [5, 7]", 1, TWO, 0x40400000, 0x40A00000, 0x40E00000, 0x41200000, 0x41A80000, 0, 0},
    {"[2, 3] x [-5, 7]", 1, TWO, 0x40400000, 0xC0A00000, 0x40E00000, 0xC1700000, 0x41A80000, 0, 0},
    {"[2, 3] x [-7, -5]", 1, TWO, 0x40400000, 0xC0E00000, 0xC0A00000, 0xC1A80000, 0xC1200000, 0, 0},
    {"[-2, 3] x [5, 7]", 1, SIGN | TWO, 0x40400000, 0x40A00000, 0x40E00000, 0xC1600000, 0x41A80000, 0, 0},
    {"[-2, 3] x [-5, 7]", 1, SIGN | TWO, 0x40400000, 0xC0A00000, 0x40E00000, 0xC1700000, 0x41A80000, 0, 0},
    {"[-3, 2] x [-5, 7]", 1, 0xC0400000, TWO, 0xC0A00000, 0x40E00000, 0xC1A80000, 0x41700000, 0, 0},
    {"[-2, 3] x [-7, -5]", 1, SIGN | TWO, 0x40400000, 0xC0E00000, 0xC0A00000, 0xC1A80000, 0x41600000, 0, 0},
    {"[-3, -2] x [5, 7]", 1, 0xC0400000, SIGN | TWO, 0x40A00000, 0x40E00000, 0xC1A80000, 0xC1200000, 0, 0},
    {"[-3, -2] x [-5, 7]", 1, 0xC0400000, SIGN | TWO, 0xC0A00000, 0x40E00000, 0xC1A80000, 0x41700000, 0, 0},
    {"[-3, -2] x [-7, -5]", 1, 0xC0400000, SIGN | TWO, 0xC0E00000, 0xC0A00000, 0x41200000, 0x41A80000, 0, 0},
    {"[1, 2] x [-1, 3]", 7, ONE, TWO, SIGN | ONE, 0x40400000, SIGN | TWO, 0x40C00000, 0x3FC00000, 0x3F000000},
    {"[1, 2] x [-1, 3]", 3, ONE, TWO, SIGN | ONE, 0x40400000, 0xC0400004, 0x40C00002, 0x3FC00000, 0x3F000000},
    {"[1, 2] x [-1, 3]", 4, ONE, TWO, SIGN | ONE, 0x40400000, 0xC0400000, 0x40C00000, 0x3FC00000, 0x3F000000},
    {"[MAX, MAX] as midpoint and radius", 4, MAX, MAX, 0, 0, 0, 0, MAX, 0},
    {"[-MAX, MAX] as midpoint and radius", 4, SIGN | MAX, MAX, 0, 0, 0, 0, 0, MAX},
    {"[1 - 2^-24, 1 + 2^-23] x 1", 4, 0x3F7FFFFF, 0x3F800001, ONE, ONE, 0x3F7FFFFE, 0x3F800001, ONE, 0x34000000},
    {"[-1 - 2^-23, -1 + 2^-24] x 1", 7, 0xBF800001, 0xBF7FFFFF, ONE, ONE, 0xBF800001, 0xBF7FFFFE, SIGN | ONE, 0x34000000},
    {"[0, 2] x [0, 2]", 5, 0, TWO, 0, TWO, 0xB5A00000, 0x40800003, ONE, ONE},
    {"[1, 2] x [-1, 3]", 5, ONE, TWO, SIGN | ONE, 0x40400000, 0xC0000006, 0x40C00003, 0x3FC00000, 0x3F000000},
    {"0 x 0, where the spacing is 2^-149", 5, 0, 0, 0, 0, 0x81000002, 0x01000002, 0, 0},
    {"2^-149 x 1", 5, 1, 1, ONE, ONE, 0x81000002, 0x01000003, 1, 0},
    {"1 x 1, a power of two", 5, ONE, ONE, ONE, ONE, ONE - 9, ONE + 5, ONE, 0},
    {"[1 - 2^-24, 1 + 2^-23] x 1", 5, 0x3F7FFFFF, 0x3F800001, ONE, ONE, ONE - 11, ONE + 6, ONE, 0x34000000},
    {"MAX - 5 x 2^104, the largest that is not refused", 5, MAX - 5, MAX - 5, ONE, ONE, MAX - 10, MAX, MAX - 5, 0},
    {"2^-149 x [-1/8, 5/4], which needs 2^-125", 3, 1, 1, 0xBE000000, 0x3FA00000, 0x81000001, 0x01000002, 1, 0},
};

#define KNOWN (sizeof known / sizeof known[0])

static struct call call;
static struct answer library, oracle;

static int differences;

static void expect(bool holds, const char *who, uint32_t method, const char *name)
{
    if (!holds) {
        printf("%s, method %u: the %s has another result\n", name, method, who);
        differences++;
    }
}

static bool gives(const struct answer *answer, const struct known *row)
{
    uint32_t ma = row->method == 1 ? *cell(&call, MA, 0) : row->ma;
    uint32_t ra = row->method == 1 ? *cell(&call, RA, 0) : row->ra;
    return answer->code == 0 && left_in(answer, CL, 0) == row->lo && left_in(answer, CU, 0) == row->up
        && left_in(answer, MA, 0) == ma && left_in(answer, RA, 0) == ra;
}

static void check_row(const struct known *row)
{
    prepare(&call, row->method, 1, 1, 1);
    *cell(&call, AL, 0) = row->al;
    *cell(&call, AU, 0) = row->au;
    *cell(&call, BL, 0) = row->bl;
    *cell(&call, BU, 0) = row->bu;
    ask_library(&call, &library);
    ask_oracle(&call, &oracle);
    expect(gives(&library, row), "library", row->method, row->name);
    expect(gives(&oracle, row), "oracle", row->method, row->name);
}

static uint32_t step(enum operation operation, enum direction direction, uint32_t a, uint32_t b)
{
    uint32_t result = 0;
    oracle_operate(operation, direction, a, b, &result);
    return result;
}

/* Method 3 without the step that adds 2^-125, for a point times an interval: 2^-149
   times [-1/8, 5/4] would give [0, 2^-148], which does not contain 2^-149 x (-1/8). So
   the last row above fails if the step is left out. */
static void check_constant_needed(void)
{
    const struct known *row = &known[KNOWN - 1];
    uint32_t m = 0, r = 0;
    oracle_to_midrad(row->bl, row->bu, &m, &r);
    uint32_t centre = step(MUL, NEAR, row->al, m);
    uint32_t raised = step(ADD, UP, step(MUL, UP, 0x34400000, m), r);   /* 3 x 2^-24 */
    uint32_t radius = step(MUL, UP, row->al, raised);
    bool outside = step(SUB, DOWN, centre, radius) == 0 && step(ADD, UP, centre, radius) == 2;
    expect(outside, "version without 2^-125", row->method, row->name);
}

/* All cells [1, 1]: size 32 is accepted, 33 is refused with 1. */
static void check_largest(uint32_t method, uint32_t lo, uint32_t up)
{
    prepare(&call, method, COUPLING_SIZE_MAX, COUPLING_SIZE_MAX, COUPLING_SIZE_MAX);
    for (int s = AL; s <= BU; s++)
        for (size_t c = 0; c < cells_of(&call, (enum slice)s); c++)
            *cell(&call, (enum slice)s, c) = ONE;
    ask_library(&call, &library);
    bool whole = left_in(&library, CL, 1023) == lo && left_in(&library, CU, 1023) == up;
    expect(library.code == 0 && whole, "library", method, "size 32");
    call.a_rows = 33;
    ask_library(&call, &library);
    expect(library.code == 1010000, "library", method, "size 33");
}

/* By each method the bounds of 32. */
static const uint32_t of_32[5][3] = {{1, 0x42000000, 0x42000000}, {3, 0x41FFFFDD, 0x42000012}, {4, 0x42000000, 0x42000000},
                                     {5, 0x41FFFF7B, 0x42000043}, {7, 0x42000000, 0x42000000}};

int check_known_products(void)
{
    for (size_t i = 0; i < KNOWN; i++)
        check_row(&known[i]);
    check_constant_needed();
    differences += check_known_sums();
    for (int i = 0; i < 5; i++)
        check_largest(of_32[i][0], of_32[i][1], of_32[i][2]);
    if (differences == 0)
        printf("%zu of one cell, %zu of a row by a column and 10 of size 32 or 33, as expected\n", KNOWN, known_sums);
    return differences;
}
