/* Tests of the C functions, not proved: the running entry, with each refusal in its
   order, lengths, guards, the pair that is too many, and words that its calls did not
   make. tests/header/gauging.c has the loads and the ranges. */
#include "check.h"

#include <string.h>

#define LARGEST COUPLING_LARGEST
#define INFINITE COUPLING_INFINITY
#define SIXTEENTH 0x3D800000u /* 1/16, the fixed amount of class 7 */

static uint32_t lent[2 + COUPLING_RUNNING_WORDS + 4], before[COUNT(lent)];
static uint32_t *const value = lent + 2; /* between guards */
static uint8_t load[COUPLING_LOAD_BYTES];

static const struct gauged good = {ONE, TWO, 0};

/* r is what a call returned: it changed no word around the value, and none at all if it
   refused. */
static uint32_t kept(uint32_t r)
{
    CHECK(untouched(lent, 2) && untouched(value + COUPLING_RUNNING_WORDS, 4));
    CHECK(!COUPLING_REFUSED(r) || memcmp(before, lent, sizeof lent) == 0);
    return r;
}

static uint32_t start_in(size_t length)
{
    memcpy(before, lent, sizeof lent);
    return kept(coupling_running_start(value, length));
}

static uint32_t take_in(size_t length, struct gauged a, struct gauged b)
{
    memcpy(before, lent, sizeof lent);
    return kept(coupling_running_take(value, length, a.lower, a.upper, a.wear, b.lower, b.upper, b.wear));
}

static uint32_t exchange_in(size_t length, size_t load_len)
{
    memcpy(before, lent, sizeof lent);
    return kept(coupling_running_amounts(value, length, load, load_len));
}

static uint32_t take(struct gauged a, struct gauged b)
{
    return take_in(COUPLING_RUNNING_WORDS, a, b);
}

/* A started value that has so many pairs of [1, 2] and [1, 2]. */
static void started(uint32_t pairs)
{
    memset(lent, GUARD_BYTE, sizeof lent);
    CHECK(start_in(COUPLING_RUNNING_WORDS) == 0);
    while (pairs-- > 0)
        CHECK(take(good, good) == 0);
}

/* Lengths below that of the value are refused before all else, and after them the pair
   that is too many, whatever its cells are. */
static void test_lengths(void)
{
    const struct gauged bad = {INFINITE, INFINITE, 8};
    const uint32_t words[] = {0, 0, 0, 0, 0x3A800000, 0x3B000000, 0x3B800000, 0x3C000000, 0x3C800000, 0x3D000000, SIXTEENTH};
    for (size_t length = 0; length <= COUPLING_RUNNING_WORDS + 2; length++) {
        int enough = length >= COUPLING_RUNNING_WORDS;
        memset(lent, GUARD_BYTE, sizeof lent);
        CHECK(start_in(length) == (enough ? 0 : refusal(2, 0, 0, 0)));
        CHECK(!enough || memcmp(value, words, sizeof words) == 0);
        started(0);
        CHECK(take_in(length, good, good) == (enough ? 0 : refusal(2, 0, 0, 0)));
        put_fixed_amounts(load);
        CHECK(exchange_in(length, COUPLING_LOAD_BYTES) == (enough ? 0 : refusal(2, 0, 0, 0)));
        started(COUPLING_PAIRS_MAX);
        CHECK(take_in(length, bad, bad) == refusal(enough ? 1 : 2, 0, 0, 0));
        CHECK(exchange_in(length, 0) == refusal(enough ? 6 : 2, 0, 0, 0));
    }
    CHECK(value[COUPLING_RUNNING_PAIRS] == COUPLING_PAIRS_MAX && value[COUPLING_RUNNING_LOWER] == 0x42000000);
    CHECK(exchange_in(COUPLING_RUNNING_WORDS, COUPLING_LOAD_BYTES) == 0 && take(good, good) == refusal(1, 0, 0, 0));
    CHECK(start_in(COUPLING_RUNNING_WORDS) == 0 && memcmp(value, words, sizeof words) == 0 && take(good, good) == 0);
}

/* A cell at fault as the first one, whatever the second is, and as the second one. */
static void test_cells(void)
{
    const struct { struct gauged cell; uint32_t number; } cases[] = {
        {{ONE, ONE, 8}, 10}, {{ONE, ONE, 9}, 10}, {{ONE, ONE, 255}, 10}, {{ONE, ONE, 256}, 10}, {{ONE, ONE, 0x10000}, 10},
        {{ONE, ONE, MINUS}, 10}, {{ONE, ONE, 0xFFFFFFFF}, 10}, {{INFINITE, ONE, 8}, 10}, {{TWO, ONE, 8}, 10}, {{ONE, LARGEST, 8}, 10},
        {{INFINITE, ONE, 0}, 3}, {{ONE, INFINITE, 7}, 3}, {{MINUS | INFINITE, ONE, 0}, 3}, {{ONE, INFINITE + 1, 0}, 3},
        {{0xFFFFFFFF, LARGEST, 1}, 3}, {{TWO, MINUS | INFINITE, 1}, 3}, {{TWO, ONE, 0}, 4}, {{ONE + 1, ONE, 7}, 4}, {{1, MINUS, 0}, 4},
        {{LARGEST, MINUS | LARGEST, 7}, 4}, {{ONE, LARGEST, 1}, 5}, {{MINUS | LARGEST, ONE, 7}, 5}, {{LARGEST, LARGEST, 2}, 5},
    };
    for (uint32_t pairs = 0; pairs < COUPLING_PAIRS_MAX; pairs += COUPLING_PAIRS_MAX - 1)
        for (size_t i = 0; i < COUNT(cases); i++) {
            uint32_t expected = refusal(cases[i].number, 0, 0, 0);
            started(pairs);
            CHECK(take(cases[i].cell, good) == expected && take(good, cases[i].cell) == expected);
            for (size_t j = 0; j < COUNT(cases); j++)
                CHECK(take(cases[i].cell, cases[j].cell) == expected);
            CHECK(take(good, good) == 0 && value[COUPLING_RUNNING_PAIRS] == pairs + 1);
        }
}

/* Sums that are too large, after both cells have passed; a pair that fits is taken then. */
static void test_sums(void)
{
    const struct gauged one = {ONE, ONE, 0}, two = {TWO, TWO, 0}, large = {LARGEST, LARGEST, 0}, below = {MINUS | LARGEST, MINUS | LARGEST, 0};
    started(0);
    CHECK(take(large, two) == refusal(5, 0, 0, 0) && take(two, below) == refusal(5, 0, 0, 0) && take(large, below) == refusal(5, 0, 0, 0));
    CHECK(take(large, one) == 0 && value[COUPLING_RUNNING_LOWER] == LARGEST && value[COUPLING_RUNNING_UPPER] == LARGEST);
    CHECK(take(one, large) == refusal(5, 0, 0, 0) && take(good, good) == refusal(5, 0, 0, 0));
    CHECK(take(below, one) == 0 && value[COUPLING_RUNNING_LOWER] == 0 && value[COUPLING_RUNNING_UPPER] == 0);
    CHECK(value[COUPLING_RUNNING_PAIRS] == 2 && take(one, below) == 0 && take(one, below) == refusal(5, 0, 0, 0));
}

/* Words that these calls did not make: the same rules on what stands in them. */
static void test_words(void)
{
    const uint32_t many[] = {COUPLING_PAIRS_MAX + 1, 255, 256, 0x10000, MINUS, 0xFFFFFFFF};
    const struct gauged worn = {ONE, ONE, 7}, crossed = {TWO, ONE, 7}, large = {LARGEST, LARGEST, 0}, unknown = {ONE, ONE, 8};
    started(1);
    for (size_t i = 0; i < COUNT(many); i++) {
        value[COUPLING_RUNNING_PAIRS] = many[i];
        CHECK(take(good, unknown) == refusal(1, 0, 0, 0));
    }
    started(1);
    value[COUPLING_RUNNING_AMOUNTS + 7] = INFINITE;
    CHECK(take(worn, unknown) == refusal(3, 0, 0, 0) && take(crossed, good) == refusal(3, 0, 0, 0));
    CHECK(take(good, worn) == refusal(3, 0, 0, 0) && take(good, good) == 0);
    value[COUPLING_RUNNING_AMOUNTS + 7] = MINUS | SIXTEENTH;
    CHECK(take(worn, unknown) == refusal(10, 0, 0, 0) && take(worn, crossed) == refusal(4, 0, 0, 0));
    CHECK(take(worn, good) == refusal(4, 0, 0, 0) && take(good, worn) == refusal(4, 0, 0, 0));
    CHECK(take((struct gauged){MINUS | ONE, ONE, 7}, (struct gauged){ONE, ONE, 0}) == 0);
    CHECK(value[COUPLING_RUNNING_LOWER] == 0x3F880000 && value[COUPLING_RUNNING_UPPER] == 0x410F0000); /* [2 - 15/16, 8 + 15/16] */
    for (int bound = COUPLING_RUNNING_LOWER; bound <= COUPLING_RUNNING_UPPER; bound++) {
        started(1);
        value[bound] = bound == COUPLING_RUNNING_LOWER ? INFINITE : 0xFFFFFFFF;
        value[COUPLING_RUNNING_AMOUNTS + 7] = MINUS | SIXTEENTH;
        CHECK(take(good, good) == refusal(3, 0, 0, 0) && take(large, large) == refusal(3, 0, 0, 0));
        CHECK(take(worn, good) == refusal(4, 0, 0, 0) && take(large, unknown) == refusal(10, 0, 0, 0));
    }
}

void test_running(void)
{
    test_lengths();
    test_cells();
    test_sums();
    test_words();
}
