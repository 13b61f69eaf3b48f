/* Benchmarks, not proved: times running entries of 32 pairs, beside the same in plain C
   and beside the library's products (running.h), in turns, and prints a table for cells
   that are not worn and for worn ones; then a start and an exchange of amounts.

   running [rounds]

   In its turn a peer works out 32 entries once untimed, to fill the caches, and then
   timed. Runs ten times as many rounds, since a round is short; the least time counts.
   Stops with status 1 where a refusal, a range after a pair or a word differs. */
#include "timing.h"

#include <string.h>

#include "running.h"
#include "table.h"

/* The names of the data sets in the heads of the tables. */
static const char *const names[DATA_SETS] = {[LIKE_SIZE] = "like size", [ANY_SIZE] = "any size", [NARROW] = "narrow"};

static struct gauges gauges;
static struct ranges expected;

/* Whether the range after each pair, or after each entry's last, is the expected one. */
static bool as_expected(const struct running_peer *peer, const struct ranges *found)
{
    for (size_t c = peer->each ? 0 : SIZE - 1; c < CELLS; c += peer->each ? 1 : SIZE)
        if (found->lower[c] != expected.lower[c] || found->upper[c] != expected.upper[c])
            return false;
    return true;
}

/* The nanoseconds a pair, or LONGEST where the ranges are not the expected ones. */
static double turn(const struct running_peer *peer)
{
    static struct ranges found;
    bool done = peer->run(&gauges, &found);
    memset(&found, 0xFF, sizeof found);
    double start = now();
    done &= peer->run(&gauges, &found);
    double took = (now() - start) / CELLS;
    return done && as_expected(peer, &found) ? took : LONGEST;
}

/* Puts the least time of each peer into least[p]. */
static bool measure(int rounds, double *least)
{
    running_peers[OURS].run(&gauges, &expected);
    for (size_t p = 0; p < RUNNING_PEERS; p++)
        least[p] = LONGEST;
    for (int round = 0; round < rounds; round++)
        for (size_t p = 0; p < RUNNING_PEERS; p++) {
            double took = turn(&running_peers[p]);
            if (took >= LONGEST) {
                printf("%s: refused, or the answer differs\n", running_peers[p].name);
                return false;
            }
            keep_least(&least[p], took);
        }
    return true;
}

static void print_peer(size_t p, double least[DATA_SETS][RUNNING_PEERS])
{
    printf("| %-38s |", running_peers[p].name);
    for (int set = 0; set < DATA_SETS; set++) {
        print_number(least[set][p]);
        print_ratio(least[set][OURS], least[set][p]);
    }
    printf("\n");
}

static bool compare(bool worn, int rounds)
{
    double least[DATA_SETS][RUNNING_PEERS];
    for (int set = 0; set < DATA_SETS; set++) {
        draw_gauges(&data_sets[set], worn, &gauges);
        if (!measure(rounds, least[set]))
            return false;
    }
    printf("\n%s\n\n| %-38s |", worn ? "classes 0 to 7" : "class 0", "nanoseconds a pair; ours / peer");
    for (int set = 0; set < DATA_SETS; set++)
        printf(" %s |  ratio |", names[set]);
    printf("\n");
    print_rule(2 * DATA_SETS);
    for (size_t p = 0; p < RUNNING_PEERS; p++)
        print_peer(p, least);
    return true;
}

int main(int argc, char **argv)
{
    int rounds = 10 * rounds_given(argc, argv);
    printf("\n## Running entries\n\nLeast of %d rounds over %d entries of %d pairs, in turns. A ratio is the time of our running entry over the peer's: below 1, ours is faster.\n",
           rounds, SIZE, SIZE);
    for (int set = 0; set < DATA_SETS; set++)
        printf("%s%s: %s", set == 0 ? "\n" : "; ", names[set], data_sets[set].title);
    printf("\n");
    return refusals_alike() && compare(false, rounds) && compare(true, rounds) && print_calls(rounds) ? 0 : 1;
}
