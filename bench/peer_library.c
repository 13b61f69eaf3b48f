/* Benchmarks, not proved: the library as three peers: the sheet job, which reads both
   sheets and writes the result, the same on class sheets, and the product alone, on
   matrices in memory. */
#include <string.h>

#include "../tests/oracle/records.h"
#include "coupling.h"
#include "peer.h"

static struct matrices given;

/* ---- the sheet job */

static uint8_t a[COUPLING_SHEET_MAX], b[COUPLING_SHEET_MAX], out[COUPLING_SHEET_MAX];
static size_t a_length, b_length, out_length;

static void load_job(const struct matrices *x)
{
    given = *x;
    a_length = coupling_write(x->m, x->k, x->al, CELLS, x->au, CELLS, a, sizeof a);
    b_length = coupling_write(x->k, x->n, x->bl, CELLS, x->bu, CELLS, b, sizeof b);
}

static bool run_job(int method)
{
    uint32_t r = coupling_multiply((uint32_t)method, a, a_length, b, b_length, out, sizeof out);
    out_length = COUPLING_REFUSED(r) ? 0 : r;
    return out_length != 0;
}

static void job_result(uint32_t *lower, uint32_t *upper)
{
    size_t cells = given.m * given.n;
    coupling_read(out, out_length, lower, cells, upper, cells);
}

const struct peer peer_job = {"ours, sheet job", ALL_METHODS, load_job, run_job, job_result};

/* Class 0 in place of amount 0: the matrices are the same. */
static void load_class_job(const struct matrices *x)
{
    load_job(x);
    a[KIND_BYTE] = b[KIND_BYTE] = CLASS_SHEET;
}

const struct peer peer_class_job = {"ours, sheet job on class sheets", ALL_METHODS, load_class_job, run_job, job_result};

/* ---- the product alone */

static uint32_t ma[CELLS], ra[CELLS], mb[CELLS], rb[CELLS], lo[CELLS], up[CELLS];

static void load_product(const struct matrices *x)
{
    given = *x;
}

static bool run_product(int method)
{
    return coupling_product((uint32_t)method, given.m, given.k, given.k, given.n,
                            given.al, CELLS, given.au, CELLS, given.bl, CELLS, given.bu, CELLS,
                            ma, CELLS, ra, CELLS, mb, CELLS, rb, CELLS, lo, CELLS, up, CELLS) == 0;
}

static void product_result(uint32_t *lower, uint32_t *upper)
{
    memcpy(lower, lo, given.m * given.n * sizeof *lower);
    memcpy(upper, up, given.m * given.n * sizeof *upper);
}

const struct peer peer_product = {"ours, product alone", ALL_METHODS, load_product, run_product, product_result};
