/* Test driver of products, not proved: known entries of a row by a column.
   By method 1: sums of which one overflows alone, or at the last pair, or would come back,
   and sums that are rounded each its way.
   By method 5: each entry tells its bound on the error from another one. With the spacing
   of C in place of that of G, or with one spacing in place of k + 1, the second and the
   third would not enclose their exact sum (tests/oracle/check_five.py). */
#include <stdio.h>

#include "numbers.h"
#include "product_call.h"
#include "product_known.h"

#define TINY 0x33800001u    /* a little more than 2^-24 */
#define OVERFLOWS 5030000u  /* 5 at row 0 and column 0 of the result, whose cells are then 0 */

/* A row of three cells [al, au] times a column of three cells [1, 1], by method 1. */
static const struct classical_sum {
    const char *name;
    uint32_t al[3], au[3], code, lo, up;
} classical_sums[] = {
    {"the lower sum overflows alone", {SIGN | MAX, SIGN | MAX, 0}, {ONE, ONE, 0}, OVERFLOWS, 0, 0},
    {"the upper sum overflows alone", {SIGN | ONE, SIGN | ONE, 0}, {MAX, MAX, 0}, OVERFLOWS, 0, 0},
    {"the lower sum stays at MAX, the upper one overflows", {MAX, MAX, 0}, {MAX, MAX, 0}, OVERFLOWS, 0, 0},
    {"the upper sum stays at -MAX, the lower one overflows", {SIGN | MAX, SIGN | MAX, 0}, {SIGN | MAX, SIGN | MAX, 0}, OVERFLOWS, 0, 0},
    {"the upper sum overflows and would come back", {0, 0, SIGN | MAX}, {MAX, MAX, SIGN | MAX}, OVERFLOWS, 0, 0},
    {"the upper sum overflows at the last pair", {0, 0, 0}, {ONE, MAX, MAX}, OVERFLOWS, 0, 0},
    {"both sums go to MAX and come back", {MAX, 0, SIGN | MAX}, {MAX, 0, SIGN | MAX}, 0, 0, 0},
    {"a cell [-0, 0] adds nothing", {ONE, SIGN, ONE}, {TWO, 0, TWO}, 0, TWO, 0x40800000},
    {"1 and two units, rounded each its way", {ONE, 1, 1}, {ONE, 1, 1}, 0, ONE, ONE + 2},
    {"-1 and two units, rounded each its way", {SIGN | ONE, 1, 1}, {SIGN | ONE, 1, 1}, 0, SIGN | ONE, 0xBF7FFFFE},
};

/* A row of k points a times a column of k points b is [lo, up], by method 5. */
static const struct sum {
    const char *name;
    size_t k;
    uint32_t a[8], b[8], lo, up;
} sums[] = {
    {"2^127 - (2^127 - 2^104), where G is MAX", 2, {0x7F000000, 0x7EFFFFFE}, {ONE, SIGN | ONE}, 0xF4A00001, 0x74E00001},
    {"a rounded product minus a number, where C is 0", 2, {0x3F800800, ONE}, {0x3F800801, 0xBF801002}, 0xB5C00001, 0x35C00001},
    {"a sum that is rounded up seven times", 8, {ONE, TINY, TINY, TINY, TINY, TINY, TINY, TINY},
     {ONE, ONE, ONE, ONE, ONE, ONE, ONE, ONE}, ONE - 23, ONE + 26},
};

static struct call call;
static struct answer answer;

#define CLASSICAL_SUMS (sizeof classical_sums / sizeof classical_sums[0])
#define SUMS (sizeof sums / sizeof sums[0])

/* What an entry is expected to be. */
struct expected {
    const char *name;
    uint32_t method, code, lo, up;
};

/* Asks the library or the independent implementation; 1 if the answer is another one. */
static int differs(void (*ask)(const struct call *, struct answer *), const char *who, const struct expected *e)
{
    ask(&call, &answer);
    if (answer.code == e->code && left_in(&answer, CL, 0) == e->lo && left_in(&answer, CU, 0) == e->up)
        return 0;
    printf("%s, method %u: the %s has another result\n", e->name, e->method, who);
    return 1;
}

static int both_differ(const struct expected *e)
{
    return differs(ask_library, "library", e) + differs(ask_oracle, "oracle", e);
}

static int check_classical_sum(const struct classical_sum *sum)
{
    struct expected e = {sum->name, 1, sum->code, sum->lo, sum->up};
    prepare(&call, 1, 1, 3, 1);
    for (size_t l = 0; l < 3; l++) {
        *cell(&call, AL, l) = sum->al[l];
        *cell(&call, AU, l) = sum->au[l];
        *cell(&call, BL, l) = *cell(&call, BU, l) = ONE;
    }
    return both_differ(&e);
}

static int check_sum(const struct sum *sum)
{
    struct expected e = {sum->name, 5, 0, sum->lo, sum->up};
    prepare(&call, 5, 1, sum->k, 1);
    for (size_t l = 0; l < sum->k; l++) {
        *cell(&call, AL, l) = *cell(&call, AU, l) = sum->a[l];
        *cell(&call, BL, l) = *cell(&call, BU, l) = sum->b[l];
    }
    return both_differ(&e);
}

const size_t known_sums = CLASSICAL_SUMS + SUMS;

int check_known_sums(void)
{
    int differences = 0;
    for (size_t i = 0; i < CLASSICAL_SUMS; i++)
        differences += check_classical_sum(&classical_sums[i]);
    for (size_t i = 0; i < SUMS; i++)
        differences += check_sum(&sums[i]);
    return differences;
}
