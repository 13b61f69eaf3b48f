/* Tests of the C functions, not proved: what a running entry shows. Loads of amounts
   that are exchanged or refused between two pairs; ranges beside those of products of a
   row and a column. */
#include "check.h"

#include <string.h>

#include "../oracle/records.h"

#define WORDS COUPLING_RUNNING_WORDS
#define MOST COUPLING_PAIRS_MAX
#define SIXTEENTH 0x3D800000u /* 1/16, the fixed amount of class 7 */

static uint32_t value[WORDS];

static uint32_t take(struct gauged a, struct gauged b)
{
    return coupling_running_take(value, WORDS, a.lower, a.upper, a.wear, b.lower, b.upper, b.wear);
}

static int shows(uint32_t lower, uint32_t upper, uint32_t pairs)
{
    return value[COUPLING_RUNNING_LOWER] == lower && value[COUPLING_RUNNING_UPPER] == upper && value[COUPLING_RUNNING_PAIRS] == pairs;
}

/* A load with these lengths is refused so; neither the value nor the load changes. */
static void refuses(const uint8_t *load, size_t load_len, uint32_t number)
{
    uint32_t words[WORDS];
    uint8_t bytes[2 * COUPLING_LOAD_BYTES];
    memcpy(words, value, sizeof words);
    memcpy(bytes, load, sizeof bytes);
    CHECK(coupling_running_amounts(value, WORDS, load, load_len) == refusal(number, 0, 0, 0));
    CHECK(memcmp(words, value, sizeof words) == 0 && memcmp(bytes, load, sizeof bytes) == 0);
}

static void test_loads(void)
{
    const uint32_t not_finite[] = {COUPLING_INFINITY, MINUS | COUPLING_INFINITY, COUPLING_INFINITY + 1, 0xFFFFFFFF};
    uint8_t load[2 * COUPLING_LOAD_BYTES];
    CHECK(coupling_running_start(value, WORDS) == 0 && take((struct gauged){ONE, TWO, 1}, (struct gauged){ONE, TWO, 2}) == 0);
    memset(load, 0xFF, sizeof load);
    for (size_t length = 0; length <= sizeof load; length++)
        refuses(load, length, length == COUPLING_LOAD_BYTES ? 3 : 6);
    for (size_t i = 0; i < 8 * COUNT(not_finite); i++) {
        put_fixed_amounts(load);
        put_number(load + 4 * (i % 8), not_finite[i / 8], 4);
        refuses(load, COUPLING_LOAD_BYTES, 3);
        put_number(load + 4 * ((i + 1) % 8), MINUS | ONE, 4); /* 13 too */
        refuses(load, COUPLING_LOAD_BYTES, 3);
    }
    for (size_t c = 0; c < 8; c++) {
        put_fixed_amounts(load);
        put_number(load + 4 * c, MINUS | 1, 4);
        refuses(load, COUPLING_LOAD_BYTES, 13);
        put_number(load + 4 * c, c < 7 ? ONE : 0, 4);
        refuses(load, COUPLING_LOAD_BYTES, 13);
    }
}

/* An exchange changes neither range nor pairs; what is widened later is widened by the
   load. The load stands right behind the value, or right before it. */
static void test_exchange(void)
{
    const uint32_t amounts[8] = {MINUS, 0, MINUS, HALF, HALF, ONE, ONE, TWO};
    const struct gauged one = {ONE, ONE, 0}, worn = {ONE, ONE, 7};
    uint32_t words[8 + WORDS + 8], around[8];
    for (size_t i = 0; i < 8; i++)
        put_number((uint8_t *)&around[i], amounts[i], 4);
    for (size_t i = 0; i < 2; i++) {
        memset(words, GUARD_BYTE, sizeof words);
        memcpy(words, around, sizeof around);
        memcpy(words + 8 + WORDS, around, sizeof around);
        CHECK(coupling_running_start(words + 8, WORDS) == 0);
        CHECK(coupling_running_amounts(words + 8, WORDS, (uint8_t *)(words + i * (8 + WORDS)), COUPLING_LOAD_BYTES) == 0);
        CHECK(memcmp(words, around, sizeof around) == 0 && memcmp(words + 8 + WORDS, around, sizeof around) == 0);
        CHECK(words[8] == 0 && words[9] == 0 && words[10] == 0 && memcmp(words + 11, amounts, sizeof amounts) == 0);
    }
    CHECK(coupling_running_start(value, WORDS) == 0 && shows(0, 0, 0));
    CHECK(take(worn, one) == 0 && shows(0x3F700000, 0x3F880000, 1));
    CHECK(coupling_running_amounts(value, WORDS, (uint8_t *)around, COUPLING_LOAD_BYTES) == 0 && shows(0x3F700000, 0x3F880000, 1));
    CHECK(memcmp(value + COUPLING_RUNNING_AMOUNTS, amounts, sizeof amounts) == 0);
    CHECK(take(one, worn) == 0 && shows(MINUS | SIXTEENTH, 0x40820000, 2)); /* [15/16 - 1, 17/16 + 3] */
}

/* ---- beside products */

static struct gauged draw_cell(void)
{
    static uint32_t drawn = 1;
    uint32_t draws[4];
    for (int i = 0; i < 4; i++)
        draws[i] = (drawn = 1664525 * drawn + 1013904223) >> 8; /* 24 bits */
    uint32_t lower = (draws[0] & 1) << 31 | (0x3E000000 + draws[1]);
    return (struct gauged){lower, draws[0] & 2 ? lower : coupling_add_up(lower, 0x3C000000 + draws[2]), draws[3] >> 21};
}

/* The cells of the pairs taken, widened by the amounts that are in force. */
static uint32_t a_lowers[MOST], a_uppers[MOST], b_lowers[MOST], b_uppers[MOST];

static void widen(struct gauged cell, uint32_t *lower, uint32_t *upper)
{
    uint32_t amount = value[COUPLING_RUNNING_AMOUNTS + cell.wear];
    *lower = coupling_sub_down(cell.lower, amount);
    *upper = coupling_add_up(cell.upper, amount);
}

/* What is shown is the product of the row and the column of so many pairs. */
static void test_shown(uint32_t pairs)
{
    uint32_t work[4][MOST], lower, upper;
    CHECK(coupling_product(1, 1, pairs, pairs, 1, a_lowers, MOST, a_uppers, MOST, b_lowers, MOST, b_uppers, MOST,
                           work[0], MOST, work[1], MOST, work[2], MOST, work[3], MOST, &lower, 1, &upper, 1) == 0);
    CHECK(shows(lower, upper, pairs));
}

/* Thirty-two pairs. The amounts are exchanged after each multiple of a number of them,
   and behind each pair stands one that is refused. */
static void test_products(void)
{
    for (uint32_t often = 1; often <= MOST; often++) {
        CHECK(coupling_running_start(value, WORDS) == 0);
        for (uint32_t l = 0; l < MOST; l++) {
            uint8_t load[COUPLING_LOAD_BYTES] = {0};
            for (uint32_t c = 1; c < 8; c++)
                put_number(load + 4 * c, 0x38000000 + 0x00200000 * l + 0x00123456 * c, 4);
            if (l > 0 && l % often == 0)
                CHECK(coupling_running_amounts(value, WORDS, load, sizeof load) == 0);
            struct gauged a = draw_cell(), b = draw_cell();
            widen(a, &a_lowers[l], &a_uppers[l]);
            widen(b, &b_lowers[l], &b_uppers[l]);
            CHECK(take(a, b) == 0);
            test_shown(l + 1);
            CHECK(take(a, (struct gauged){TWO, ONE, 0}) == refusal(l + 1 < MOST ? 4 : 1, 0, 0, 0));
        }
    }
}

void test_gauging(void)
{
    test_loads();
    test_exchange();
    test_products();
}
