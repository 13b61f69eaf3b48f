/* Benchmarks, not proved: times the peers in turns. In its turn a peer runs once
   untimed, to fill the caches, and then timed, several times in a row for small
   products; after each turn its result is compared. */
#include "timing.h"

#include "measure.h"

#include <stdio.h>
#include <string.h>

#define STEPS 256  /* the least number of steps over l in a turn */
#define SHORT 1024 /* products with at most this many steps get ten times as many rounds */

struct bounds {
    uint32_t lower[CELLS], upper[CELLS];
};

static struct bounds expected[METHODS];

static bool equal(const struct bounds *x, const struct bounds *y, size_t cells)
{
    return memcmp(x->lower, y->lower, cells * sizeof x->lower[0]) == 0
        && memcmp(x->upper, y->upper, cells * sizeof x->upper[0]) == 0;
}

/* The nanoseconds of one call, or LONGEST where the result is not the expected one. */
static double turn(const struct matrices *x, const struct peer *peer, int method)
{
    static struct bounds found;
    int calls = 1 + STEPS / (int)(x->m * x->k * x->n);
    bool done = peer->run(methods[method]);
    double start = now();
    for (int i = 0; i < calls; i++)
        done &= peer->run(methods[method]);
    double took = (now() - start) / calls;
    peer->result(found.lower, found.upper);
    return done && equal(&found, &expected[method], x->m * x->n) ? took : LONGEST;
}

static bool round_of_turns(const struct matrices *x, const struct peer *const *peers, size_t count, struct times *times)
{
    for (int method = 0; method < METHODS; method++)
        for (size_t p = 0; p < count; p++) {
            if (!has_method(peers[p]->methods, method))
                continue;
            double took = turn(x, peers[p], method);
            if (took >= LONGEST) {
                printf("%s, method %d, %zu by %zu by %zu: the answer differs\n",
                       peers[p]->name, methods[method], x->m, x->k, x->n);
                return false;
            }
            keep_least(&times->least[p][method], took);
        }
    return true;
}

bool measure(const struct matrices *x, const struct peer *const *peers, size_t count, int rounds, struct times *times)
{
    for (size_t p = 0; p < count; p++)
        peers[p]->load(x);
    for (int method = 0; method < METHODS; method++) {
        peers[0]->run(methods[method]);
        peers[0]->result(expected[method].lower, expected[method].upper);
        for (size_t p = 0; p < count; p++)
            times->least[p][method] = LONGEST;
    }
    if (x->m * x->k * x->n <= SHORT)
        rounds *= 10;
    for (int round = 0; round < rounds; round++)
        if (!round_of_turns(x, peers, count, times))
            return false;
    return true;
}
