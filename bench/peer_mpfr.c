/* Benchmarks, not proved: the classical method by MPFR with 24 bits: four corner
   products rounded down and four up, and two sums, for each step over l. */
#include <mpfr.h>

#include "bits.h"
#include "peer.h"

#define BITS 24

static size_t m, k, n;
static mpfr_t al[CELLS], au[CELLS], bl[CELLS], bu[CELLS], lo[CELLS], up[CELLS];
static mpfr_t down_corners[4], up_corners[4];

static void start(mpfr_t *x, size_t count)
{
    for (size_t c = 0; c < count; c++)
        mpfr_init2(x[c], BITS);
}

static void start_once(void)
{
    static bool started = false;
    if (started)
        return;
    started = true;
    mpfr_t *const all[] = {al, au, bl, bu, lo, up};
    for (size_t i = 0; i < sizeof all / sizeof all[0]; i++)
        start(all[i], CELLS);
    start(down_corners, 4);
    start(up_corners, 4);
}

static void load_cells(size_t cells, const uint32_t *patterns, mpfr_t *x)
{
    for (size_t c = 0; c < cells; c++)
        mpfr_set_flt(x[c], value_of(patterns[c]), MPFR_RNDN);
}

static void load(const struct matrices *x)
{
    start_once();
    m = x->m;
    k = x->k;
    n = x->n;
    load_cells(m * k, x->al, al);
    load_cells(m * k, x->au, au);
    load_cells(k * n, x->bl, bl);
    load_cells(k * n, x->bu, bu);
}

static inline mpfr_ptr least(mpfr_ptr x, mpfr_ptr y)
{
    return mpfr_cmp(x, y) <= 0 ? x : y;
}

static inline mpfr_ptr greatest(mpfr_ptr x, mpfr_ptr y)
{
    return mpfr_cmp(x, y) <= 0 ? y : x;
}

static inline void corners(mpfr_t *c, size_t a, size_t b, mpfr_rnd_t mode)
{
    mpfr_mul(c[0], al[a], bl[b], mode);
    mpfr_mul(c[1], al[a], bu[b], mode);
    mpfr_mul(c[2], au[a], bl[b], mode);
    mpfr_mul(c[3], au[a], bu[b], mode);
}

static bool entry(size_t i, size_t j)
{
    mpfr_ptr low = lo[i * n + j], high = up[i * n + j];
    mpfr_t *d = down_corners, *u = up_corners;
    mpfr_set_zero(low, 1);
    mpfr_set_zero(high, 1);
    for (size_t l = 0; l < k; l++) {
        corners(d, i * k + l, l * n + j, MPFR_RNDD);
        corners(u, i * k + l, l * n + j, MPFR_RNDU);
        mpfr_add(low, low, least(least(d[0], d[1]), least(d[2], d[3])), MPFR_RNDD);
        mpfr_add(high, high, greatest(greatest(u[0], u[1]), greatest(u[2], u[3])), MPFR_RNDU);
    }
    return mpfr_number_p(low) && mpfr_number_p(high);
}

static bool run(int method)
{
    bool finite = method == 1;
    for (size_t i = 0; i < m; i++)
        for (size_t j = 0; j < n; j++)
            finite &= entry(i, j);
    return finite;
}

static void result(uint32_t *lower, uint32_t *upper)
{
    for (size_t c = 0; c < m * n; c++) {
        lower[c] = result_pattern(mpfr_get_flt(lo[c], MPFR_RNDN));
        upper[c] = result_pattern(mpfr_get_flt(up[c], MPFR_RNDN));
    }
}

const struct peer peer_mpfr = {"MPFR, 24 bits", "1", load, run, result};
