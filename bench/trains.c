/* Benchmarks, not proved: times a train of 8 full sheets in one call, beside 7 sheet
   jobs in a row and the same train in plain C (train.h), in turns, and prints a table
   for each size.

   trains [rounds]

   In its turn a peer runs once untimed, to fill the caches, and then timed. The median
   of all rounds counts. Stops with status 1 where a call is refused, or where the
   sheets that two peers wrote differ. */
#include "timing.h"

#include <string.h>

#include "measure.h"
#include "table.h"
#include "train.h"

#define SMALL 4 /* a train of sheets of this size gets ten times as many rounds */
#define OURS 0

static const struct train_peer *const peers[] = {
    [OURS] = &peer_train,
    &peer_jobs,
    &peer_train_integers,
    &peer_train_once,
    &peer_train_machine,
};

#define PEERS (sizeof peers / sizeof peers[0])

static struct train train;

/* The sheet that the first peer wrote; its length is 0 if that peer refused. */
static uint8_t expected[COUPLING_SHEET_MAX];
static size_t expected_length;

/* The nanoseconds of one call, or LONGEST where it did not write the expected sheet. */
static double turn(const struct train_peer *peer, int method)
{
    static uint8_t out[COUPLING_SHEET_MAX];
    peer->run(methods[method], &train, out);
    double start = now();
    size_t length = peer->run(methods[method], &train, out);
    double took = now() - start;
    return length != 0 && length == expected_length && memcmp(out, expected, length) == 0 ? took : LONGEST;
}

/* Puts the time of each peer into times[p][round]. */
static bool round_of_turns(int method, int round, double **times)
{
    for (size_t p = 0; p < PEERS; p++) {
        if (!has_method(peers[p]->methods, method))
            continue;
        times[p][round] = turn(peers[p], method);
        if (times[p][round] >= LONGEST) {
            printf("%s, method %d, %zu by %zu: refused, or the answer differs\n", peers[p]->name, methods[method], train.size, train.size);
            return false;
        }
    }
    return true;
}

static int by_time(const void *x, const void *y)
{
    double a = *(const double *)x, b = *(const double *)y;
    return (a > b) - (a < b);
}

/* Puts the median of each peer by a method into medians[p]. */
static bool measure_method(int method, int rounds, double **times, double *medians)
{
    expected_length = peers[OURS]->run(methods[method], &train, expected);
    for (int round = 0; round < rounds; round++)
        if (!round_of_turns(method, round, times))
            return false;
    for (size_t p = 0; p < PEERS; p++) {
        qsort(times[p], (size_t)rounds, sizeof *times[p], by_time);
        medians[p] = times[p][rounds / 2];
    }
    return true;
}

static void print_peer(size_t p, double medians[METHODS][PEERS])
{
    printf("| %-38s |", peers[p]->name);
    for (int method = 0; method < METHODS; method++) {
        if (!has_method(peers[p]->methods, method)) {
            print_empty();
            print_empty();
            continue;
        }
        print_number(medians[method][p] * 1e-3);
        print_ratio(medians[method][OURS], medians[method][p]);
    }
    printf("\n");
}

static bool compare(size_t size, int rounds, double **times)
{
    double medians[METHODS][PEERS];
    if (!draw_train(size, &train)) {
        printf("%zu by %zu: a sheet was not written in full\n", size, size);
        return false;
    }
    for (int method = 0; method < METHODS; method++)
        if (!measure_method(method, rounds, times, medians[method]))
            return false;
    printf("\n%d sheets of %zu by %zu, %s\n\n| %-38s |", SHEETS, size, size, data_sets[NARROW].title, "microseconds by method; ours / peer");
    for (int method = 0; method < METHODS; method++)
        printf(" %6d |  ratio |", methods[method]);
    printf("\n");
    print_rule(2 * METHODS);
    for (size_t p = 0; p < PEERS; p++)
        print_peer(p, medians);
    return true;
}

int main(int argc, char **argv)
{
    int rounds = rounds_given(argc, argv);
    double *times[PEERS];
    for (size_t p = 0; p < PEERS; p++)
        if ((times[p] = calloc(10 * (size_t)rounds, sizeof *times[p])) == NULL)
            return 1;
    printf("\n## Trains\n\nMedian of %d rounds, of ten times as many at %d by %d, in turns. A ratio is the time of our train over the peer's: below 1, the train is faster.\n",
           rounds, SMALL, SMALL);
    return compare(SIZE, rounds, times) && compare(SMALL, 10 * rounds, times) ? 0 : 1;
}
