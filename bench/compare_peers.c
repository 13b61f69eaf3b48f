/* Benchmarks, not proved: times the sheet job and all peers (peer.h), and prints a
   table for each size and data set. */
#include "compare.h"
#include "measure.h"
#include "table.h"

#define OURS 0
#define INTEGERS 2

static const struct peer *const peers[] = {
    [OURS] = &peer_job,
    &peer_product,
    [INTEGERS] = &peer_integers,
    &peer_once,
    &peer_machine,
#ifdef HAVE_MPFR
    &peer_mpfr,
#endif
#ifdef HAVE_MPFI
    &peer_mpfi,
#endif
#ifdef HAVE_BOOST
    &peer_boost,
    &peer_boost_hoisted,
#endif
};

#define PEERS (sizeof peers / sizeof peers[0])

_Static_assert(PEERS <= MOST_PEERS, "times have room for all peers");

static void print_head(const struct matrices *x, const char *title)
{
    printf("%zu by %zu by %zu, %s\n\n", x->m, x->k, x->n, title);
    printf("| %-38s |", "microseconds by method; ours / peer");
    for (int method = 0; method < METHODS; method++)
        printf(" %6d |  ratio |", methods[method]);
    printf("\n");
    print_rule(2 * METHODS);
}

static void print_peer(size_t p, const struct times *times)
{
    printf("| %-38s |", peers[p]->name);
    for (int method = 0; method < METHODS; method++) {
        if (!has_method(peers[p]->methods, method)) {
            print_empty();
            print_empty();
            continue;
        }
        print_number(times->least[p][method] * 1e-3);
        print_ratio(times->least[OURS][method], times->least[p][method]);
    }
    printf("\n");
}

/* A row with the same time for all methods, and our time by each method over it. */
static void print_against(const char *name, double time, const struct times *times)
{
    printf("| %-38s |", name);
    for (int method = 0; method < METHODS; method++) {
        print_number(time * 1e-3);
        print_ratio(times->least[OURS][method], time);
    }
    printf("\n\n");
}

static bool compare(const struct data_set *set, size_t m, size_t k, size_t n, int rounds)
{
    static struct matrices x;
    static struct times times;
    draw_matrices(set, m, k, n, &x);
    if (!measure(&x, peers, PEERS, rounds, &times))
        return false;
    print_head(&x, set->title);
    for (size_t p = 0; p < PEERS; p++)
        print_peer(p, &times);
    print_against("plain C by method 1", times.least[INTEGERS][0], &times);
    return true;
}

bool compare_peers(int rounds)
{
    for (int set = 0; set < DATA_SETS; set++)
        if (!compare(&data_sets[set], SIZE, SIZE, SIZE, rounds))
            return false;
    return compare(&data_sets[NARROW], SIZE, 1, SIZE, rounds) && compare(&data_sets[NARROW], 1, 1, 1, rounds);
}
