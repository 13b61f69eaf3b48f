/* Benchmarks, not proved: the times of peers on one pair of matrices. */
#ifndef MEASURE_H
#define MEASURE_H

#include "peer.h"

#define MOST_PEERS 9

/* The nanoseconds of one call, the least of all rounds. */
struct times {
    double least[MOST_PEERS][METHODS];
};

/* Times the peers in turns, by each method that they have; small products get ten
   times as many rounds. Each result must equal the first peer's, bit for bit: where
   one differs, prints the peer's name and returns false. */
bool measure(const struct matrices *x, const struct peer *const *peers, size_t count, int rounds, struct times *times);

#endif
