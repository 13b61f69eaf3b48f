/* Benchmarks, not proved: the classical method by MPFI with 24 bits, an mpfi_mul
   and an mpfi_add for each step over l. */
#include <mpfi.h>
#include <mpfi_io.h>

#include "bits.h"
#include "peer.h"

#define BITS 24

static size_t m, k, n;
static mpfi_t a[CELLS], b[CELLS], c[CELLS], product;
static mpfr_t end;

static void start_once(void)
{
    static bool started = false;
    if (started)
        return;
    started = true;
    for (size_t i = 0; i < CELLS; i++) {
        mpfi_init2(a[i], BITS);
        mpfi_init2(b[i], BITS);
        mpfi_init2(c[i], BITS);
    }
    mpfi_init2(product, BITS);
    mpfr_init2(end, BITS);
}

static void load_cells(size_t cells, const uint32_t *lower, const uint32_t *upper, mpfi_t *x)
{
    for (size_t i = 0; i < cells; i++)
        mpfi_interv_d(x[i], (double)value_of(lower[i]), (double)value_of(upper[i]));
}

static void load(const struct matrices *x)
{
    start_once();
    m = x->m;
    k = x->k;
    n = x->n;
    load_cells(m * k, x->al, x->au, a);
    load_cells(k * n, x->bl, x->bu, b);
}

static bool run(int method)
{
    bool bounded = method == 1;
    for (size_t i = 0; i < m; i++)
        for (size_t j = 0; j < n; j++) {
            mpfi_ptr sum = c[i * n + j];
            mpfi_set_ui(sum, 0);
            for (size_t l = 0; l < k; l++) {
                mpfi_mul(product, a[i * k + l], b[l * n + j]);
                mpfi_add(sum, sum, product);
            }
            bounded &= mpfi_bounded_p(sum) != 0;
        }
    return bounded;
}

static void result(uint32_t *lower, uint32_t *upper)
{
    for (size_t i = 0; i < m * n; i++) {
        mpfi_get_left(end, c[i]);
        lower[i] = result_pattern(mpfr_get_flt(end, MPFR_RNDN));
        mpfi_get_right(end, c[i]);
        upper[i] = result_pattern(mpfr_get_flt(end, MPFR_RNDN));
    }
}

const struct peer peer_mpfi = {"MPFI, 24 bits", "1", load, run, result};
