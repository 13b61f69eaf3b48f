/* Independent implementation, not proved: self-test of the running entry on values that were
   not made by its calls. */
#include <string.h>

#include "check.h"

#define WORDS RUNNING_WORDS
#define UNIT 1u                 /* the least positive number */

static uint32_t value[WORDS], before[WORDS];

/* A value with these sums and this number of pairs. The amounts: 0, -1, an infinity, no
   number, -MAX, MAX, minus zero and the negative infinity. */
static void put_value(uint32_t lower, uint32_t upper, uint32_t pairs)
{
    const uint32_t words[WORDS] = {lower, upper, pairs, 0, NEGATIVE | ONE, INFINITY_PATTERN, NAN_PATTERN,
                                   NEGATIVE | MAX, MAX, NEGATIVE, NEGATIVE | INFINITY_PATTERN};
    memcpy(value, words, sizeof value);
    memcpy(before, words, sizeof before);
}

/* Whether the pair is refused with this number and changes nothing. */
static bool refuses(struct gauged a, struct gauged b, uint32_t number)
{
    return oracle_value_take(value, WORDS, a, b) == 1000000 * number && memcmp(value, before, sizeof value) == 0;
}

/* Whether the value takes the pair, and has these sums then and the same amounts. */
static bool gives(struct gauged a, struct gauged b, uint32_t lower, uint32_t upper)
{
    bool taken = oracle_value_take(value, WORDS, a, b) == 0 && value[0] == lower && value[1] == upper
        && value[2] == before[2] + 1 && memcmp(value + 3, before + 3, 32) == 0;
    memcpy(value, before, sizeof value);
    return taken;
}

/* An amount that is no number gives 3 with its cell, after 10 and before 4. */
static void check_amounts_not_finite(void)
{
    put_value(ONE, TWO, 31);
    CHECK(gives(POINT(ONE), POINT(ONE), TWO, THREE));
    for (uint32_t c = 2; c < 8; c++)
        if (c == 2 || c == 3 || c == 7) {
            CHECK(refuses(CELL(ONE, TWO, c), CELL(ONE, TWO, 8), 3) && refuses(CELL(TWO, ONE, c), POINT(MAX), 3));
            CHECK(refuses(POINT(ONE), CELL(ONE, TWO, c), 3) && refuses(CELL(TWO, ONE, 0), CELL(ONE, TWO, c), 4));
            CHECK(refuses(CELL(ONE, TWO, 8), CELL(ONE, TWO, c), 10) && refuses(CELL(0, UNIT, 5), CELL(ONE, TWO, c), 5));
        }
}

/* An amount below zero moves the bounds inward; where they have passed each other then, the
   pair gives 4 after the checks of both cells and before those of the sums. */
static void check_amounts_below_zero(void)
{
    put_value(0, 0, 0);
    CHECK(gives(CELL(ONE, FOUR, 1), POINT(ONE), TWO, THREE) && gives(CELL(ONE, THREE, 1), CELL(NEGATIVE | ONE, ONE, 1), 0, 0));
    CHECK(gives(CELL(NEGATIVE | MAX, MAX, 4), POINT(ONE), 0, 0) && gives(POINT(ONE), CELL(NEGATIVE, 0, 6), 0, 0));
    CHECK(refuses(CELL(ONE, TWO, 1), POINT(ONE), 4) && refuses(POINT(ONE), CELL(ONE, TWO, 1), 4) && refuses(POINT(ONE), CELL(0, MAX, 4), 4));
    CHECK(refuses(CELL(MAX, MAX, 4), POINT(ONE), 4) && refuses(CELL(TWO, ONE, 1), CELL(ONE, TWO, 8), 4));
    CHECK(refuses(CELL(ONE, TWO, 1), CELL(ONE, TWO, 8), 10) && refuses(CELL(ONE, TWO, 1), POINT(NAN_PATTERN), 3));
    CHECK(refuses(CELL(ONE, TWO, 1), CELL(UNIT, UNIT, 5), 5) && refuses(CELL(ONE, TWO, 1), CELL(ONE, TWO, 2), 3));
    put_value(INFINITY_PATTERN, ONE, 0);
    CHECK(refuses(CELL(ONE, TWO, 1), POINT(ONE), 4) && refuses(CELL(ONE, THREE, 1), POINT(ONE), 3));
}

/* A sum that is no number gives 3 after the cells and before 5; crossed sums are carried on,
   and minus zero is zero. */
static void check_words(void)
{
    const uint32_t not_finite[] = {INFINITY_PATTERN, 0x7F800001, NAN_PATTERN, NEGATIVE | INFINITY_PATTERN, 0xFFFFFFFF};
    for (int i = 0; i < 10; i++) {
        put_value(i % 2 == 0 ? not_finite[i / 2] : ONE, i % 2 == 0 ? ONE : not_finite[i / 2], 5);
        CHECK(refuses(POINT(ONE), POINT(ONE), 3) && refuses(POINT(MAX), POINT(MAX), 3) && refuses(POINT(0), POINT(0), 3));
        CHECK(refuses(CELL(ONE, ONE, 8), POINT(ONE), 10) && refuses(POINT(ONE), CELL(TWO, ONE, 0), 4) && refuses(POINT(ONE), CELL(ONE, ONE, 5), 5));
    }
    put_value(NEGATIVE, NEGATIVE, 0);
    CHECK(gives(POINT(0), POINT(ONE), 0, 0) && gives(POINT(NEGATIVE), POINT(ONE), 0, 0) && gives(POINT(ONE), POINT(ONE), ONE, ONE));
    put_value(TWO, ONE, 0);
    CHECK(gives(POINT(ONE), POINT(ONE), THREE, TWO) && gives(CELL(NEGATIVE | ONE, TWO, 0), POINT(ONE), ONE, THREE));
    put_value(MAX, NEGATIVE | MAX, 0);
    CHECK(gives(POINT(ONE), POINT(ONE), MAX, NEGATIVE | (MAX - 1)) && refuses(POINT(MAX), POINT(TWO), 5));
}

/* 32 pairs or more give 1, whatever else is wrong. Amounts can be exchanged, and the entry
   begun anew, whatever the words are. */
void check_any_value(void)
{
    const uint32_t counts[] = {32, 33, 256, 0x80000000, 0xFFFFFFFF}, begun[3] = {0, 0, 0};
    uint8_t load[32] = {0};
    check_amounts_not_finite();
    check_amounts_below_zero();
    check_words();
    for (int i = 0; i < 5; i++) {
        put_value(NAN_PATTERN, NEGATIVE, counts[i]);
        CHECK(refuses(POINT(ONE), POINT(ONE), 1) && refuses(CELL(TWO, NAN_PATTERN, 8), CELL(ONE, TWO, 2), 1));
        CHECK(oracle_value_amounts(value, WORDS, load, 31) == 6000000 && memcmp(value, before, sizeof value) == 0);
        CHECK(oracle_value_amounts(value, WORDS, load, 32) == 0 && memcmp(value, before, 12) == 0 && all_are(value + 3, 8, 0));
        CHECK(oracle_value_start(value, WORDS) == 0 && memcmp(value, begun, 12) == 0 && value[10] == 0x3D800000);
    }
}
