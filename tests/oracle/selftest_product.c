/* Independent implementation, not proved: self-test of the products. */
#include "check.h"

#define ROOM 1025   /* one more than the cells of any matrix */

static const uint32_t methods[5] = {1, 3, 4, 5, 7};
/* The bounds of 32 by methods 3 and 5 are about 32 -+ 34/2^19 and 32 -+ 33/2^17. */
static const uint32_t lowers_of_32[5] = {0x42000000, 0x41FFFFDD, 0x42000000, 0x41FFFF7B, 0x42000000};
static const uint32_t uppers_of_32[5] = {0x42000000, 0x42000012, 0x42000000, 0x42000043, 0x42000000};

/* The memory lent to a call, and the lengths of its ten slices. */
static uint32_t a_lo[ROOM], a_hi[ROOM], b_lo[ROOM], b_hi[ROOM], c_lo[ROOM], c_hi[ROOM];
static uint32_t m_a[ROOM], r_a[ROOM], m_b[ROOM], r_b[ROOM];
static size_t lengths[10];

/* Cells of A and B: [1, 1]; other slices: UNTOUCHED; lengths: the largest. */
static void reset(void)
{
    uint32_t *const inputs[] = {a_lo, a_hi, b_lo, b_hi};
    uint32_t *const others[] = {m_a, r_a, m_b, r_b, c_lo, c_hi};
    for (int i = 0; i < 4; i++)
        fill(inputs[i], ROOM, ONE);
    for (int i = 0; i < 6; i++)
        fill(others[i], ROOM, UNTOUCHED);
    for (int i = 0; i < 10; i++)
        lengths[i] = ROOM;
}

static struct refusal multiply(uint32_t method, size_t m, size_t k, size_t n)
{
    return oracle_product(method, m, k, n, a_lo, lengths[0], a_hi, lengths[1],
        b_lo, lengths[2], b_hi, lengths[3], m_a, lengths[4], r_a, lengths[5],
        m_b, lengths[6], r_b, lengths[7], c_lo, lengths[8], c_hi, lengths[9]);
}

static bool work_untouched(size_t from)
{
    return all_are(m_a + from, ROOM - from, UNTOUCHED) && all_are(r_a + from, ROOM - from, UNTOUCHED)
        && all_are(m_b + from, ROOM - from, UNTOUCHED) && all_are(r_b + from, ROOM - from, UNTOUCHED);
}

static bool result_untouched(size_t from)
{
    return all_are(c_lo + from, ROOM - from, UNTOUCHED) && all_are(c_hi + from, ROOM - from, UNTOUCHED);
}

/* Whether [lo_a, hi_a] times [lo_b, hi_b], 1 by 1, is [lo, hi]. */
static bool gives(uint32_t method, uint32_t lo_a, uint32_t hi_a, uint32_t lo_b, uint32_t hi_b, uint32_t lo, uint32_t hi)
{
    reset();
    a_lo[0] = lo_a;
    a_hi[0] = hi_a;
    b_lo[0] = lo_b;
    b_hi[0] = hi_b;
    return is(multiply(method, 1, 1, 1), 0, 0, 0, 0) && c_lo[0] == lo && c_hi[0] == hi
        && result_untouched(1) && work_untouched(method == 1 ? 0 : 1);
}

void check_products(void)
{
    const uint32_t minus_one = NEGATIVE | ONE, minus_two = NEGATIVE | TWO, six = 0x40C00000;
    CHECK(gives(4, 0, TWO, 0, TWO, minus_two, FOUR));
    CHECK(gives(1, 0, TWO, 0, TWO, 0, FOUR) && gives(7, 0, TWO, 0, TWO, 0, FOUR));
    CHECK(gives(1, ONE, TWO, minus_one, THREE, minus_two, six));
    CHECK(gives(7, ONE, TWO, minus_one, THREE, minus_two, six));
    CHECK(gives(3, ONE, TWO, minus_one, THREE, 0xC0400004, 0x40C00002));
    CHECK(gives(4, ONE, TWO, minus_one, THREE, 0xC0400000, six));
    CHECK(m_a[0] == 0x3FC00000 && r_a[0] == 0x3F000000 && m_b[0] == ONE && r_b[0] == TWO);
    CHECK(gives(3, 1, 1, 0xBE000000, 0x3FA00000, 0x81000001, 0x01000002)); /* needs the 2^-125 of method 3 */
    CHECK(gives(4, NEGATIVE, 0, NEGATIVE, NEGATIVE, 0, 0));
    CHECK(gives(1, NEGATIVE | MAX, NEGATIVE | MAX, ONE, ONE, NEGATIVE | MAX, NEGATIVE | MAX));

    for (int i = 0; i < 5; i++) {
        reset();
        CHECK(is(multiply(methods[i], 32, 32, 32), 0, 0, 0, 0));
        CHECK(result_untouched(1024) && work_untouched(methods[i] == 1 ? 0 : 1024));
        CHECK(all_are(c_lo, 1024, lowers_of_32[i]) && all_are(c_hi, 1024, uppers_of_32[i]));
        CHECK(is(multiply(methods[i], 33, 1, 1), 1, 1, 0, 0));
    }
}

/* Refusals 9, 1 and 2, each before the ones that follow it. */
static void check_frame(void)
{
    static const uint32_t matrices[10] = {1, 1, 2, 2, 0, 0, 0, 0, 3, 3};
    reset();
    a_lo[0] = NAN_PATTERN;
    lengths[0] = 0;
    CHECK(is(multiply(6, 0, 1, 1), 9, 0, 0, 0) && is(multiply(0, 1, 1, 1), 9, 0, 0, 0));
    CHECK(is(multiply(4, 0, 1, 0), 1, 1, 0, 0) && is(multiply(4, 1, 33, 1), 1, 1, 0, 0));
    CHECK(is(multiply(4, 1, 1, 0), 1, 2, 0, 0) && is(multiply(1, 1, 1, 33), 1, 2, 0, 0));
    CHECK(is(oracle_check_sizes(2, 3, 2, 3), 1, 2, 0, 0) && is(oracle_check_sizes(2, 3, 3, 2), 0, 0, 0, 0));
    lengths[0] = ROOM;
    for (int i = 9; i >= 0; i--) {          /* this slice and all behind it are too short */
        lengths[i] = 8;
        CHECK(is(multiply(1, 3, 3, 3), 2, matrices[i], 0, 0));
        CHECK(is(multiply(4, 3, 3, 3), 2, matrices[i], 0, 0));
    }
    CHECK(result_untouched(0) && work_untouched(0));
}

/* Refusals 3 and 4 by rows: A before B, and 3 before 4 in a cell. */
static void check_cells(void)
{
    reset();
    b_hi[5] = INFINITY_PATTERN;
    CHECK(is(multiply(7, 2, 3, 2), 3, 2, 2, 1));
    b_lo[2] = TWO;
    CHECK(is(multiply(7, 2, 3, 2), 4, 2, 1, 0));
    a_lo[3] = NAN_PATTERN;
    CHECK(is(multiply(7, 2, 3, 2), 3, 1, 1, 0));
    a_lo[1] = TWO;
    CHECK(is(multiply(7, 2, 3, 2), 4, 1, 0, 1));
    a_hi[1] = NEGATIVE | INFINITY_PATTERN;
    CHECK(is(multiply(7, 2, 3, 2), 3, 1, 0, 1));
    CHECK(result_untouched(0) && work_untouched(0));
}

/* 5 names the first refused entry by rows; the result is 0, the work converted. */
static void check_overflow(void)
{
    for (int i = 0; i < 5; i++) {
        reset();                    /* A and B have 1 and MAX on the diagonal */
        a_lo[1] = a_hi[1] = a_lo[2] = a_hi[2] = NEGATIVE;
        b_lo[1] = b_hi[1] = b_lo[2] = b_hi[2] = 0;
        a_lo[3] = a_hi[3] = b_lo[3] = b_hi[3] = MAX;
        CHECK(is(multiply(methods[i], 2, 2, 2), 5, 3, 1, 1));
        CHECK(all_are(c_lo, 4, 0) && all_are(c_hi, 4, 0) && result_untouched(4));
        CHECK(work_untouched(methods[i] == 1 ? 0 : 4));
        if (methods[i] != 1)
            CHECK(m_a[0] == ONE && all_are(m_a + 1, 2, 0) && m_a[3] == MAX && m_b[3] == MAX && all_are(r_a, 4, 0) && all_are(r_b, 4, 0));
    }
    reset();    /* |mB| + rB overflows at B(1,1) though rA is 0: entry (0,1) */
    fill(a_lo, 4, 0x3F000000);
    fill(a_hi, 4, 0x3F000000);
    b_lo[3] = 0x7E800000;
    b_hi[3] = MAX;
    CHECK(is(multiply(1, 2, 2, 2), 0, 0, 0, 0));
    for (int i = 1; i < 5; i++)
        CHECK(is(multiply(methods[i], 2, 2, 2), 5, 3, 0, 1));
    CHECK(gives(4, ONE, ONE, MAX, MAX, MAX, MAX) && gives(7, ONE, ONE, MAX, MAX, MAX, MAX));
    CHECK(gives(1, MAX, MAX, NEGATIVE | ONE, ONE, NEGATIVE | MAX, MAX));
}

void check_product_refusals(void)
{
    check_frame();
    check_cells();
    check_overflow();
}
