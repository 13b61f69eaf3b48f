/* Independent implementation, not proved: self-test of method 5. Entries that were
   computed by hand, entries that tell it from methods with another bound on the error,
   and a refusal in each step that can be refused. */
#include "check.h"

#define MOST 8                  /* pairs of the longest entry */
#define HALF 0x3F000000u
#define WIDE 0x7E800000u, MAX   /* a cell [2^126, MAX], whose |m| + r is too large */

/* One pair of an entry: a cell of A and a cell of B. */
struct cells {
    uint32_t a_lo, a_hi, b_lo, b_hi;
};

static uint32_t lo, hi;

/* The entry of k pairs. */
static struct refusal entry(uint32_t method, size_t k, const struct cells *cells)
{
    uint32_t a[2][MOST], b[2][MOST], work[4][MOST];
    for (size_t l = 0; l < k; l++) {
        a[0][l] = cells[l].a_lo;
        a[1][l] = cells[l].a_hi;
        b[0][l] = cells[l].b_lo;
        b[1][l] = cells[l].b_hi;
    }
    lo = hi = UNTOUCHED;
    return oracle_product(method, 1, k, 1, a[0], k, a[1], k, b[0], k, b[1], k,
                          work[0], k, work[1], k, work[2], k, work[3], k, &lo, 1, &hi, 1);
}

static bool gives(size_t k, const struct cells *cells, uint32_t lower, uint32_t upper)
{
    return is(entry(5, k, cells), 0, 0, 0, 0) && lo == lower && hi == upper;
}

/* Whether it gives this for the points a and b. */
static bool of_points(uint32_t a, uint32_t b, uint32_t lower, uint32_t upper)
{
    const struct cells cells = {a, a, b, b};
    return gives(1, &cells, lower, upper);
}

/* Whether method 5 refuses the entry. */
static bool refuses(size_t k, const struct cells *cells)
{
    return is(entry(5, k, cells), 5, 3, 0, 0) && lo == 0 && hi == 0;
}

/* Whether this method gives the entry, as method 5 does not. */
static bool alone_gives(uint32_t method, size_t k, const struct cells *cells)
{
    return refuses(k, cells) && is(entry(method, k, cells), 0, 0, 0, 0);
}

/* For points with an exact product S, the sum in R, and G are equal. So R is 2 E: 4 times
   the spacing of the product, and 2^-125. */
static void check_spacing(void)
{
    CHECK(of_points(0, 0, 0x81000002, 0x01000002));                 /* at 0 a unit: R is 2^24 + 4 units */
    CHECK(of_points(1, ONE, 0x81000002, 0x01000003));               /* subnormal: a unit, and C is one */
    CHECK(of_points(0x7FFFFF, ONE, 0x80800005, 0x01400002));        /* the last subnormal: a unit */
    CHECK(of_points(0x800000, ONE, 0x80800004, 0x01400002));        /* the first normal number: a unit */
    CHECK(of_points(0x1000000, ONE, 0x80000008, 0x01800002));       /* 2^24 units: two units */
    CHECK(of_points(ONE, ONE, ONE - 9, ONE + 5));                   /* a power of two: the spacing above it */
    CHECK(of_points(ONE - 1, ONE, ONE - 6, ONE + 2));               /* below it half of that */
    CHECK(of_points(NEGATIVE | ONE, ONE, NEGATIVE | (ONE + 5), NEGATIVE | (ONE - 9)));
    const struct cells largest[] = {{0x7F000000, 0x7F000000, ONE, ONE}, {0xFEFFFFFE, 0xFEFFFFFE, ONE, ONE}};
    CHECK(gives(2, largest, 0xF4A00001, 0x74E00001));               /* G is MAX, C and its spacing are 2^104 */
}

/* Cells with a radius: S is the sum of (|mA| + rA) x (|mB| + rB), and R is S - G + 2 E. */
static void check_radius(void)
{
    const struct cells corner = {0, TWO, 0, TWO}, mixed = {ONE, TWO, NEGATIVE | ONE, THREE};
    const struct cells both[] = {{ONE, THREE, ONE, ONE}, {NEGATIVE | THREE, NEGATIVE | ONE, ONE, ONE}};
    const struct cells about_zero = {NEGATIVE | ONE, ONE, NEGATIVE | TWO, TWO};
    CHECK(gives(1, &corner, 0xB5A00000, 0x40800003));       /* C and G 2, S 4, E 2^-21: R 2 + 5 x 2^-22 */
    CHECK(gives(1, &mixed, 0xC0000006, 0x40C00003));        /* C and G 2, S 6: R 4 + 3 x 2^-21 */
    CHECK(gives(2, both, 0xC000000D, 0x4000000D));          /* C 0, G 4, S 6, E 3 x 2^-21: R 2 + 13 x 2^-22 */
    CHECK(gives(1, &about_zero, 0xC0000001, 0x40000001));   /* C and G 0: R 2 and a little */
}

/* Two entries that tell the bound on the error from another one. With the spacing of C in
   place of that of G, or with one spacing in place of k + 1, they would not enclose. */
static void check_error(void)
{
    /* The product 1 + 2^-11 + 3 x 2^-24 + 2^-35 is rounded up, the sum of magnitudes too,
       and C is 0, whose spacing is a unit. The exact sum is 2^-35 - 2^-24. */
    const uint32_t a = 0x3F800800, b = 0x3F800801, rounded = 0x3F801002;
    const struct cells cancelled[] = {{a, a, b, b}, {ONE, ONE, NEGATIVE | rounded, NEGATIVE | rounded}};
    CHECK(gives(2, cancelled, 0xB5C00001, 0x35C00001));     /* R is 2 E, E is 3 x 2^-22 and a little */
    /* 1, and seven times a little more than 2^-24: each sum is rounded up by almost 2^-24.
       The exact sum is a little above 1 + 3.5 x 2^-23. */
    struct cells summed[8] = {{ONE, ONE, ONE, ONE}};
    for (int l = 1; l < 8; l++)
        summed[l] = (struct cells){0x33800001, 0x33800001, ONE, ONE};
    CHECK(gives(8, summed, ONE - 23, ONE + 26));            /* C is 1 + 7 x 2^-23, R 18 x 2^-23 and a little */
}

/* Products and sums; where one of C is refused, so is one of G. */
static void check_refused_sums(void)
{
    const uint32_t half = 0x7F000000, root = 0x5F800000;    /* 2^127, 2^64 */
    const struct cells product = {root, root, root, root}, sum[] = {{half, half, ONE, ONE}, {half, half, ONE, ONE}};
    const struct cells sizes[] = {{half, half, ONE, ONE}, {half, half, NEGATIVE | ONE, NEGATIVE | ONE}};
    CHECK(refuses(1, &product) && refuses(2, sum) && refuses(2, sizes));    /* of C; of G, though C is 0 */
    const struct cells widest = {NEGATIVE | root, root, NEGATIVE | root, root};
    const struct cells widths[] = {{NEGATIVE | half, half, ONE, ONE}, {NEGATIVE | half, half, ONE, ONE}};
    CHECK(refuses(1, &widest) && refuses(2, widths));       /* of S, though C and G are 0 */
}

static void check_refused_steps(void)
{
    const uint32_t tiny = 0x0D800000;                       /* 2^-100 */
    const struct cells wide_a = {WIDE, tiny, tiny}, wide_b = {tiny, tiny, WIDE}, times_zero = {WIDE, 0, 0};
    CHECK(alone_gives(3, 1, &wide_a) && alone_gives(4, 1, &wide_a) && alone_gives(7, 1, &wide_a));  /* |mA| + rA */
    CHECK(alone_gives(4, 1, &times_zero) && alone_gives(1, 1, &wide_b));                            /* and |mB| + rB */
    const struct cells whole = {NEGATIVE | MAX, MAX, ONE, ONE};
    CHECK(alone_gives(4, 1, &whole) && alone_gives(7, 1, &whole));                                  /* R, by its 2 E */
    const struct cells upper = {MAX, MAX, ONE, ONE}, lower = {MAX, MAX, NEGATIVE | ONE, NEGATIVE | ONE};
    CHECK(alone_gives(4, 1, &upper) && alone_gives(7, 1, &lower));                                  /* C + R and C - R */
    const struct cells just_above = {MAX - 4, MAX - 4, ONE, ONE};
    CHECK(of_points(MAX - 5, ONE, MAX - 10, MAX) && refuses(1, &just_above));
    CHECK(of_points(NEGATIVE | (MAX - 5), ONE, NEGATIVE | MAX, NEGATIVE | (MAX - 10)));
}

/* A(1,1) of a 3 by 2 matrix is [2^126, MAX]: method 5 refuses its row, at the first entry. */
static void check_refused_row(void)
{
    uint32_t a_lo[6] = {ONE, ONE, ONE, 0x7E800000, ONE, ONE}, a_hi[6] = {ONE, ONE, ONE, MAX, ONE, ONE};
    uint32_t b[4] = {HALF, HALF, HALF, HALF}, work[4][6], c[2][6];
    for (uint32_t method = 4; method <= 5; method++) {
        struct refusal refusal = oracle_product(method, 3, 2, 2, a_lo, 6, a_hi, 6, b, 4, b, 4,
                                                work[0], 6, work[1], 6, work[2], 4, work[3], 4, c[0], 6, c[1], 6);
        CHECK(method == 5 ? is(refusal, 5, 3, 1, 0) : is(refusal, 0, 0, 0, 0));
        CHECK(work[0][0] == ONE && work[1][5] == 0 && all_are(work[2], 4, HALF) && all_are(work[3], 4, 0));
    }
    CHECK(all_are(c[0], 6, 0) && all_are(c[1], 6, 0));
}

void check_method_five(void)
{
    check_spacing();
    check_radius();
    check_error();
    check_refused_sums();
    check_refused_steps();
    check_refused_row();
}
