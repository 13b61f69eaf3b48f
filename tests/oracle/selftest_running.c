/* Independent implementation, not proved: self-test of the running entry. Each call is made to
   the history and, by one step, to the words, which must agree. */
#include <string.h>

#include "check.h"

#define WORDS RUNNING_WORDS
#define LOAD 32                 /* bytes of a load */
#define UNIT 1u                 /* the least positive number */
#define TENTH 0x3DCCCCCDu       /* 13,421,773 x 2^-27, the number nearest to 0.1 */
#define LARGE 0x7F000000u       /* 2^127; MAX is 2^128 - 2^104 */

static struct running running;
static uint32_t made[WORDS + 1], stepped[WORDS + 1], before[WORDS + 1];     /* a value, and a word behind it */
static uint8_t load[LOAD + 1];

static const uint32_t fixed[8] = {0, 0x3A800000, 0x3B000000, 0x3B800000, 0x3C000000, 0x3C800000, 0x3D000000, 0x3D800000};
static const uint32_t mill[8] = {NEGATIVE, TENTH, ONE, TWO, THREE, FOUR, LARGE, MAX};

/* Whether both gave this number and the same value, unchanged by a refusal. */
static bool agreed(uint32_t by_history, uint32_t by_step, uint32_t number)
{
    return by_history == 1000000 * number && by_step == 1000000 * number && memcmp(made, stepped, sizeof made) == 0
        && (number == 0 || memcmp(made, before, sizeof made) == 0);
}

static bool start(size_t len, uint32_t number)
{
    memcpy(before, made, sizeof before);
    return agreed(oracle_running_start(&running, made, len), oracle_value_start(stepped, len), number);
}

static bool take(size_t len, struct gauged a, struct gauged b, uint32_t number)
{
    memcpy(before, made, sizeof before);
    return agreed(oracle_running_take(&running, made, len, a, b), oracle_value_take(stepped, len, a, b), number);
}

static bool exchange(size_t len, const uint32_t amounts[8], size_t load_len, uint32_t number)
{
    memcpy(before, made, sizeof before);
    for (int c = 0; c < 8; c++)
        put_number(load + 4 * c, amounts[c], 4);
    return agreed(oracle_running_amounts(&running, made, len, load, load_len),
                  oracle_value_amounts(stepped, len, load, load_len), number);
}

/* Whether the value has this range and number of pairs, and these amounts. */
static bool shows(uint32_t lower, uint32_t upper, uint32_t pairs, const uint32_t amounts[8])
{
    return made[0] == lower && made[1] == upper && made[2] == pairs && memcmp(made + 3, amounts, LOAD) == 0
        && made[WORDS] == UNTOUCHED;
}

static bool starts(void)
{
    fill(made, WORDS + 1, UNTOUCHED);
    fill(stepped, WORDS + 1, UNTOUCHED);
    return start(WORDS, 0) && shows(0, 0, 0, fixed);
}

static bool takes(struct gauged a, struct gauged b)
{
    return take(WORDS, a, b, 0);
}

static bool refuses(struct gauged a, struct gauged b, uint32_t number)
{
    return take(WORDS, a, b, number);
}

/* Amounts are exchanged between pairs; those that were taken stay as they were widened. */
static void check_values(void)
{
    CHECK(starts());
    CHECK(takes(CELL(ONE, TWO, 0), CELL(NEGATIVE | ONE, THREE, 0)) && shows(0xC0000000, 0x40C00000, 1, fixed));     /* [-2, 6] */
    CHECK(takes(CELL(ONE, ONE, 7), POINT(TWO)) && shows(0xBE000000, 0x41020000, 2, fixed));     /* + [15/8, 17/8] is [-1/8, 65/8] */
    CHECK(exchange(WORDS, mill, LOAD, 0) && shows(0xBE000000, 0x41020000, 2, mill));
    CHECK(takes(CELL(ONE, TWO, 1), POINT(ONE)) && shows(0x3F466666, 0x4123999A, 3, mill));      /* + [3F666666, 40066667] */
    CHECK(exchange(WORDS, fixed, LOAD, 0) && shows(0x3F466666, 0x4123999A, 3, fixed));
    CHECK(takes(POINT(ONE), CELL(0, 0, 1)) && shows(0x3F462666, 0x41239D9A, 4, fixed));         /* + [-2^-10, 2^-10] */
    CHECK(starts() && takes(CELL(UNIT, UNIT, 7), POINT(ONE)) && shows(0xBD800000, 0x3D800001, 1, fixed));
    CHECK(starts() && takes(POINT(ONE), POINT(ONE)) && takes(POINT(UNIT), POINT(ONE)) && shows(ONE, ONE + 1, 2, fixed));
    CHECK(takes(POINT(NEGATIVE | ONE), POINT(ONE)) && shows(0, 0x34000000, 3, fixed));          /* 2^-23 */
    CHECK(starts() && takes(CELL(NEGATIVE, 0, 0), CELL(0, NEGATIVE, 0)) && shows(0, 0, 1, fixed));
    CHECK(takes(POINT(0), CELL(NEGATIVE | ONE, TWO, 0)) && shows(0, 0, 2, fixed));
}

/* The sums overflow, both or one alone, and stay as they were; they come back from MAX. */
static void check_sums(void)
{
    CHECK(starts() && refuses(POINT(MAX), POINT(TWO), 5) && refuses(CELL(NEGATIVE | MAX, ONE, 0), POINT(TWO), 5));
    CHECK(takes(POINT(ONE), POINT(MAX)) && shows(MAX, MAX, 1, fixed) && refuses(POINT(UNIT), POINT(UNIT), 5));
    CHECK(takes(POINT(MAX), POINT(NEGATIVE | ONE)) && shows(0, 0, 2, fixed));
    CHECK(takes(CELL(NEGATIVE | MAX, 0, 0), POINT(ONE)) && shows(NEGATIVE | MAX, 0, 3, fixed));
    CHECK(refuses(CELL(NEGATIVE | UNIT, ONE, 0), POINT(ONE), 5) && takes(POINT(ONE), POINT(ONE)) && shows(NEGATIVE | MAX, ONE, 4, fixed));
}

/* Each fault of the first cell comes before each fault of the second, whatever its number. */
static void check_order(void)
{
    const struct gauged good = {ONE, TWO, 7}, wrong[] = {
        {NAN_PATTERN, ONE, 8}, {ONE, TWO, 255}, {ONE, TWO, 256}, {TWO, ONE, 0x10000}, {MAX, MAX, 0x80000007}, {ONE, TWO, 0xFFFFFFF8},
        {ONE, TWO, 0xFFFFFFFF}, {TWO, NAN_PATTERN, 7}, {INFINITY_PATTERN, ONE, 0}, {0xFFFFFFFF, 0x7F800001, 1},
        {TWO, ONE, 0}, {MAX, NEGATIVE | MAX, 7}, {0, MAX, 1}, {NEGATIVE | MAX, 0, 7},
    };
    const uint32_t numbers[] = {10, 10, 10, 10, 10, 10, 10, 3, 3, 3, 4, 4, 5, 5};
    CHECK(starts() && takes(POINT(ONE), POINT(MAX)));
    for (int i = 0; i < 14; i++) {
        CHECK(refuses(wrong[i], POINT(MAX), numbers[i]) && refuses(POINT(MAX), wrong[i], numbers[i]));
        for (int j = 0; j < 14; j++)
            CHECK(refuses(wrong[i], wrong[j], numbers[i]));
    }
    CHECK(takes(good, POINT(NEGATIVE | ONE)) && made[2] == 2);
}

/* A refused load leaves the amounts in force; its patterns are kept as they are. */
static void check_loads(void)
{
    const uint32_t falling[8] = {0, TWO, ONE, TWO, TWO, TWO, TWO, TWO}, from_one[8] = {ONE, TWO, TWO, TWO, TWO, TWO, TWO, TWO};
    const uint32_t infinite[8] = {ONE, 0, 0, 0, 0, 0, 0, INFINITY_PATTERN}, zeros[8] = {NEGATIVE, 0, NEGATIVE, 0, 0, 0, 0, NEGATIVE};
    CHECK(starts() && takes(POINT(ONE), POINT(ONE)) && exchange(WORDS, mill, LOAD, 0));
    CHECK(refuses(CELL(NEGATIVE | ONE, NEGATIVE | TWO, 7), POINT(ONE), 4) && refuses(CELL(NEGATIVE | TWO, NEGATIVE | ONE, 7), POINT(ONE), 5));
    CHECK(exchange(WORDS, infinite, 31, 6) && exchange(WORDS, fixed, 33, 6) && exchange(WORDS, fixed, 0, 6));
    CHECK(exchange(WORDS, infinite, LOAD, 3) && exchange(WORDS, falling, LOAD, 13) && exchange(WORDS, from_one, LOAD, 13));
    CHECK(takes(CELL(ONE, ONE, 2), POINT(ONE)) && shows(ONE, 0x40400000, 2, mill));             /* [1, 1] + [0, 2] */
    CHECK(exchange(WORDS, zeros, LOAD, 0) && shows(ONE, 0x40400000, 2, zeros) && takes(CELL(0, MAX, 7), POINT(0)) && starts());
}

/* A thirty-third pair is refused before its cells are looked at, a short slice before all else. */
static void check_counts(void)
{
    CHECK(starts());
    for (uint32_t k = 1; k <= 32; k++)
        CHECK(takes(POINT(ONE), POINT(ONE)) && made[2] == k);
    CHECK(shows(0x42000000, 0x42000000, 32, fixed) && refuses(POINT(ONE), POINT(ONE), 1) && refuses(CELL(TWO, ONE, 99), POINT(MAX), 1));
    CHECK(exchange(WORDS, mill, LOAD, 0) && refuses(POINT(NAN_PATTERN), POINT(ONE), 1) && shows(0x42000000, 0x42000000, 32, mill));
    for (size_t len = 0; len < WORDS; len++)
        CHECK(take(len, CELL(TWO, NAN_PATTERN, 8), POINT(ONE), 2) && start(len, 2) && exchange(len, fixed, 31, 2));
    CHECK(start(WORDS + 1, 0) && take(WORDS + 1, POINT(TWO), POINT(ONE), 0) && exchange(WORDS + 1, mill, LOAD, 0) && shows(TWO, TWO, 1, mill));
}

void check_running(void)
{
    check_values();
    check_sums();
    check_order();
    check_loads();
    check_counts();
}
