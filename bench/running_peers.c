/* Benchmarks, not proved: the peers that carry running entries. The calls are in other
   files, so that the compiler cannot inline them: each is made as a caller makes it. */
#include "running.h"

/* Reads the range after each call, as one who gauges does. */
static inline bool carry(start_call *start, take_call *take, const struct gauges *x, struct ranges *out)
{
    const struct matrices *g = &x->gauged;
    uint32_t value[COUPLING_RUNNING_WORDS], answer = 0;
    for (size_t c = 0; c < CELLS; c++) {
        if (c % SIZE == 0)
            answer |= start(value, COUPLING_RUNNING_WORDS);
        answer |= take(value, COUPLING_RUNNING_WORDS, g->al[c], g->au[c], x->a_class[c], g->bl[c], g->bu[c], x->b_class[c]);
        out->lower[c] = value[COUPLING_RUNNING_LOWER];
        out->upper[c] = value[COUPLING_RUNNING_UPPER];
    }
    return answer == 0;
}

static bool run_ours(const struct gauges *x, struct ranges *out)
{
    return carry(coupling_running_start, coupling_running_take, x, out);
}

static bool run_integers(const struct gauges *x, struct ranges *out)
{
    return carry(plain_start, integer_take, x, out);
}

static bool run_once(const struct gauges *x, struct ranges *out)
{
    return carry(plain_start, integer_take_once, x, out);
}

static bool run_machine(const struct gauges *x, struct ranges *out)
{
    return carry(plain_start, machine_take, x, out);
}

/* ---- products of a row and a column, of cells that are widened already */

/* The entry over the k pairs from pair c on, in *lower and *upper. */
static bool product(const struct matrices *w, size_t c, size_t k, uint32_t *lower, uint32_t *upper)
{
    static uint32_t work[4][SIZE];
    return coupling_product(1, 1, k, k, 1, w->al + c, k, w->au + c, k, w->bl + c, k, w->bu + c, k,
                            work[0], k, work[1], k, work[2], k, work[3], k, lower, 1, upper, 1) == 0;
}

static bool run_products(const struct gauges *x, struct ranges *out)
{
    bool done = true;
    for (size_t c = 0; c < CELLS; c++)
        done &= product(&x->widened, c - c % SIZE, c % SIZE + 1, &out->lower[c], &out->upper[c]);
    return done;
}

static bool run_product(const struct gauges *x, struct ranges *out)
{
    bool done = true;
    for (size_t c = 0; c < CELLS; c += SIZE)
        done &= product(&x->widened, c, SIZE, &out->lower[c + SIZE - 1], &out->upper[c + SIZE - 1]);
    return done;
}

const struct running_peer running_peers[RUNNING_PEERS] = {
    [OURS] = {"ours, running entry", true, run_ours},
    {"plain C, 64-bit integers", true, run_integers},
    {"plain C, each product once", true, run_once},
    {"hardware floats, fesetround", true, run_machine},
    {"ours, a product after each pair", true, run_products},
    {"ours, one product of all pairs", false, run_product},
};
