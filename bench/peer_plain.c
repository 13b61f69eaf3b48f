/* Benchmarks, not proved: peers in plain C, over 64-bit integers and on the machine's
   floats. They work on matrices in memory and neither read nor write sheets. */
#include "bits.h"
#include "integer_product.h"
#include "peer.h"
#include "plain_product.h"

static size_t m, k, n;

static void load_sizes(const struct matrices *x)
{
    m = x->m;
    k = x->k;
    n = x->n;
}

/* ---- integers */

static struct patterns all, once;

static void load_patterns(const struct matrices *x, struct patterns *p)
{
    load_sizes(x);
    memcpy(p->al, x->al, sizeof x->al);
    memcpy(p->au, x->au, sizeof x->au);
    memcpy(p->bl, x->bl, sizeof x->bl);
    memcpy(p->bu, x->bu, sizeof x->bu);
}

static void patterns_result(const struct patterns *p, uint32_t *lower, uint32_t *upper)
{
    memcpy(lower, p->lo, m * n * sizeof *lower);
    memcpy(upper, p->up, m * n * sizeof *upper);
}

static void load_all(const struct matrices *x) { load_patterns(x, &all); }
static bool run_all(int method) { return integer_product(method, m, k, n, &all); }
static void all_result(uint32_t *lower, uint32_t *upper) { patterns_result(&all, lower, upper); }

static void load_once(const struct matrices *x) { load_patterns(x, &once); }
static bool run_once(int method) { return integer_once(method, m, k, n, &once); }
static void once_result(uint32_t *lower, uint32_t *upper) { patterns_result(&once, lower, upper); }

const struct peer peer_integers = {"plain C, 64-bit integers", ALL_METHODS, load_all, run_all, all_result};
const struct peer peer_once = {"plain C, each product once", "15", load_once, run_once, once_result};

/* ---- the machine's floats */

static struct floats floats;

static void load_floats(size_t cells, const uint32_t *patterns, float *values)
{
    memcpy(values, patterns, cells * sizeof *values);
}

static void load_machine(const struct matrices *x)
{
    load_sizes(x);
    load_floats(m * k, x->al, floats.al);
    load_floats(m * k, x->au, floats.au);
    load_floats(k * n, x->bl, floats.bl);
    load_floats(k * n, x->bu, floats.bu);
}

static bool run_machine(int method)
{
    return plain_product(method, m, k, n, &floats);
}

static void machine_result(uint32_t *lower, uint32_t *upper)
{
    for (size_t c = 0; c < m * n; c++) {
        lower[c] = result_pattern(floats.lo[c]);
        upper[c] = result_pattern(floats.up[c]);
    }
}

const struct peer peer_machine = {"hardware floats, fesetround", ALL_METHODS, load_machine, run_machine, machine_result};
