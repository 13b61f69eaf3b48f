/* Benchmarks, not proved: the clock, the least of several times, and the number of
   rounds, which is the argument of a program. Include this file first. */
#ifndef TIMING_H
#define TIMING_H

#define _POSIX_C_SOURCE 200809L /* clock_gettime */
#include <stdlib.h>
#include <time.h>

#define LONGEST 1e18

/* The time in nanoseconds, from any fixed start. */
static inline double now(void)
{
    struct timespec t;
    clock_gettime(CLOCK_MONOTONIC, &t);
    return (double)t.tv_sec * 1e9 + (double)t.tv_nsec;
}

static inline void keep_least(double *least, double took)
{
    if (took < *least)
        *least = took;
}

static inline int rounds_given(int argc, char **argv)
{
    int rounds = argc > 1 ? atoi(argv[1]) : 51;
    return rounds < 1 ? 1 : rounds;
}

#endif
