/* Tests of the C functions, not proved: the sheet job, with each refusal that it
   can give, zero lengths, and bytes around out. */
#include "check.h"

#include <string.h>

#include "../oracle/records.h"

/* The job with guards around an out of this length: what it writes stays inside
   the length returned, and nothing is written on a refusal. */
static uint32_t guarded(uint32_t method, const uint8_t *a, size_t a_len, const uint8_t *b, size_t b_len, size_t out_len)
{
    static uint8_t bytes[64 + COUPLING_SHEET_MAX + 64];
    memset(bytes, GUARD_BYTE, sizeof bytes);
    uint32_t r = coupling_multiply(method, a, a_len, b, b_len, bytes + 64, out_len);
    size_t end = COUPLING_REFUSED(r) ? 64 : 64 + r;
    CHECK(COUPLING_REFUSED(r) || r <= out_len);
    for (size_t i = 0; i < sizeof bytes; i++)
        CHECK((i >= 64 && i < end) || bytes[i] == GUARD_BYTE);
    return r;
}

struct damage {
    uint32_t expected;
    size_t sheet, at; /* sheet 0 is A, 1 is B */
    uint32_t value;
    int count;
};

static void test_damage(void)
{
    const struct damage cases[] = {
        {refusal(1, 1, 0, 0), 0, 2, 33, 1},                {refusal(1, 2, 0, 0), 1, 3, 0, 1},
        {refusal(1, 2, 0, 0), 1, 2, 3, 1},                 {refusal(3, 1, 1, 1), 0, 36, COUPLING_INFINITY, 4},
        {refusal(4, 2, 0, 0), 1, 20, COUPLING_LARGEST, 4}, {refusal(6, 1, 0, 0), 0, 4, 4, 2},
        {refusal(6, 2, 0, 0), 1, 31, 1, 1},                {refusal(7, 1, 0, 0), 0, 16, 3, 2},
        {refusal(8, 2, 0, 0), 1, 32, 1, 2},                {refusal(10, 2, 1, 1), 1, 44, 8, 1},
    };
    uint8_t s[2][LENGTH];
    for (size_t i = 0; i < COUNT(cases); i++) {
        put_sheet(s[0]);
        put_sheet(s[1]);
        put_number(s[cases[i].sheet] + cases[i].at, cases[i].value, cases[i].count);
        CHECK(guarded(4, s[0], LENGTH, s[1], LENGTH, COUPLING_SHEET_MAX) == cases[i].expected);
    }
}

static void test_methods(void)
{
    uint8_t s[LENGTH];
    put_sheet(s);
    for (uint32_t method = 0; method < 10; method++) {
        int known = method == 1 || method == 3 || method == 4 || method == 5 || method == 7;
        uint32_t r = guarded(method, s, LENGTH, s, LENGTH, COUPLING_SHEET_MAX);
        uint32_t length = method == 3 || method == 5 ? 80 : LENGTH; /* by these a sum of zeros is not [0, 0] */
        CHECK(r == (known ? length : refusal(9, 0, 0, 0)));
    }
}

static void test_overflow_and_room(void)
{
    uint8_t s[LENGTH];
    put_sheet(s);
    CHECK(guarded(1, s, LENGTH, s, LENGTH, LENGTH) == LENGTH);
    CHECK(guarded(1, s, LENGTH, s, LENGTH, LENGTH - 1) == refusal(11, 3, 0, 0));
    put_number(s + 40, COUPLING_LARGEST, 4);
    put_number(s + 36, COUPLING_LARGEST, 4);
    CHECK(guarded(1, s, LENGTH, s, LENGTH, 0) == refusal(5, 3, 1, 1));
    put_number(s + 44, 1, 1);
    CHECK(guarded(1, s, LENGTH, s, LENGTH, 0) == refusal(5, 1, 1, 1));
}

static void test_zero_lengths(void)
{
    uint8_t s[LENGTH];
    put_sheet(s);
    CHECK(guarded(1, s, 0, s, 0, 0) == refusal(6, 1, 0, 0));
    CHECK(guarded(1, s, LENGTH, s, 0, 0) == refusal(6, 2, 0, 0));
    CHECK(guarded(1, s, LENGTH, s, LENGTH, 0) == refusal(11, 3, 0, 0));
}

void test_job(void)
{
    test_damage();
    test_methods();
    test_overflow_and_room();
    test_zero_lengths();
}
