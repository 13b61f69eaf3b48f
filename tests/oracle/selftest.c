/* Independent implementation, not proved: self-test of the operations, and the main
   function of the whole self-test. */
#include <stdio.h>

#include "check.h"

static int checks, failures;

void check(bool holds, const char *condition, const char *file, int line)
{
    checks++;
    if (!holds) {
        failures++;
        printf("%s:%d: %s\n", file, line, condition);
    }
}

bool is(struct refusal refusal, uint32_t number, uint32_t matrix,
        uint32_t row, uint32_t column)
{
    return refusal.number == number && refusal.matrix == matrix
        && refusal.row == row && refusal.column == column;
}

void fill(uint32_t *cells, size_t count, uint32_t value)
{
    for (size_t i = 0; i < count; i++)
        cells[i] = value;
}

bool all_are(const uint32_t *cells, size_t count, uint32_t value)
{
    for (size_t i = 0; i < count; i++)
        if (cells[i] != value)
            return false;
    return true;
}

/* Whether the operation gives this result and is not refused. */
static bool gives(enum operation operation, enum direction direction,
                  uint32_t a, uint32_t b, uint32_t expected)
{
    uint32_t result = UNTOUCHED;
    return oracle_operate(operation, direction, a, b, &result) == 0
        && result == expected;
}

/* Whether the operation is refused with this number and writes nothing. */
static bool refuses(enum operation operation, enum direction direction,
                    uint32_t a, uint32_t b, uint32_t number)
{
    uint32_t result = UNTOUCHED;
    return oracle_operate(operation, direction, a, b, &result) == number
        && result == UNTOUCHED;
}

/* Each operation gives different results in different directions: the rounding modes of
   the machine are used. */
static void check_modes(void)
{
    const uint32_t third = 0x3EAAAAAB, step = 0x33000001;
    CHECK(gives(ADD, DOWN, ONE, step, ONE) && gives(ADD, UP, ONE, step, ONE + 1));
    CHECK(gives(SUB, DOWN, ONE, 1, ONE - 1) && gives(SUB, UP, ONE, 1, ONE));
    CHECK(gives(MUL, DOWN, third, third, 0x3DE38E39) && gives(MUL, UP, third, third, 0x3DE38E3A));
    CHECK(gives(MIDPOINT, DOWN, ONE, ONE + 1, ONE) && gives(MIDPOINT, UP, ONE, ONE + 1, ONE + 1));
    CHECK(gives(ADD, DOWN, NEGATIVE | ONE, NEGATIVE | step, (NEGATIVE | ONE) + 1));
    CHECK(gives(ADD, UP, NEGATIVE | ONE, NEGATIVE | step, NEGATIVE | ONE));
    CHECK(gives(ADD, NEAR, ONE, step, ONE) && gives(SUB, NEAR, ONE, step, ONE - 1));
}

static void check_numbers(void)
{
    CHECK(gives(ADD, UP, ONE, 0x33800000, 0x3F800001));
    CHECK(gives(ADD, DOWN, ONE, 0x33800000, ONE));
    CHECK(gives(ADD, NEAR, ONE, 0x33800000, ONE));
    CHECK(gives(ADD, NEAR, ONE + 1, 0x33800000, ONE + 2));
    CHECK(refuses(ADD, NEAR, MAX, 0x73000000, 5));
    CHECK(gives(ADD, NEAR, MAX, 0x72FFFFFF, MAX));
    CHECK(refuses(ADD, UP, MAX, 1, 5) && gives(ADD, DOWN, MAX, 1, MAX));
    CHECK(gives(ADD, UP, NEGATIVE | MAX, NEGATIVE | MAX, NEGATIVE | MAX));
    CHECK(refuses(ADD, DOWN, NEGATIVE | MAX, NEGATIVE | 1, 5));
    CHECK(gives(MUL, DOWN, MAX, MAX, MAX) && refuses(MUL, UP, MAX, MAX, 5));
    CHECK(gives(MUL, UP, 1, 1, 1) && gives(MUL, DOWN, 1, 1, 0));
    CHECK(gives(MUL, DOWN, NEGATIVE | 1, 1, NEGATIVE | 1));
    CHECK(gives(MUL, UP, NEGATIVE | 1, 1, 0) && gives(MUL, NEAR, NEGATIVE | 1, 1, 0));
    CHECK(gives(SUB, DOWN, ONE, ONE, 0) && gives(ADD, DOWN, NEGATIVE, NEGATIVE, 0));
    CHECK(gives(MUL, DOWN, NEGATIVE, ONE, 0) && gives(SUB, UP, NEGATIVE, 0, 0));
    CHECK(refuses(ADD, UP, INFINITY_PATTERN, ONE, 3));
    CHECK(refuses(MUL, NEAR, ONE, NEGATIVE | INFINITY_PATTERN, 3));
    CHECK(refuses(SUB, DOWN, NAN_PATTERN, 0, 3) && refuses(MIDPOINT, UP, 0, 0x7F800001, 3));
}

/* Halves of odd subnormals, sums above MAX and operands far apart. */
static void check_midpoints(void)
{
    CHECK(gives(MIDPOINT, DOWN, 0, 1, 0) && gives(MIDPOINT, UP, 0, 1, 1));
    CHECK(gives(MIDPOINT, NEAR, 0, 1, 0) && gives(MIDPOINT, NEAR, 1, 2, 2));
    CHECK(gives(MIDPOINT, DOWN, 0, NEGATIVE | 1, NEGATIVE | 1));
    CHECK(gives(MIDPOINT, UP, 0, NEGATIVE | 1, 0) && gives(MIDPOINT, NEAR, 0, NEGATIVE | 1, 0));
    CHECK(gives(MIDPOINT, UP, MAX, MAX, MAX) && gives(MIDPOINT, DOWN, MAX, MAX - 1, MAX - 1));
    CHECK(gives(MIDPOINT, UP, MAX, MAX - 1, MAX) && gives(MIDPOINT, NEAR, MAX, MAX - 1, MAX - 1));
    CHECK(gives(MIDPOINT, UP, MAX, 1, 0x7F000000) && gives(MIDPOINT, DOWN, MAX, 1, 0x7EFFFFFF));
    CHECK(gives(MIDPOINT, DOWN, MAX, NEGATIVE | 1, 0x7EFFFFFE));
    CHECK(gives(MIDPOINT, NEAR, MAX, 1, 0x7EFFFFFF));
    CHECK(gives(MIDPOINT, UP, TWO, ONE, 0x3FC00000));
}

int main(void)
{
    check_modes();
    check_numbers();
    check_midpoints();
    check_conversions();
    check_small_format();
    check_smallest_radius();
    check_products();
    check_product_refusals();
    check_method_five();
    check_reading();
    check_read_refusals();
    check_amounts();
    check_reading_with();
    check_kinds();
    check_plain_form();
    check_writing();
    check_job();
    check_train();
    check_running();
    check_any_value();
    check_print();
    printf("%d checks, %d failures\n", checks, failures);
    return failures == 0 ? 0 : 1;
}
