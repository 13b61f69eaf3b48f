/* Benchmarks, not proved: times the sheet job and its peers, and prints which peers
   are not installed.

   jobs [rounds]

   Stops with status 1 where the result of a timed call differs. */
#include "timing.h"

#include "compare.h"

#include <stdio.h>

static void print_missing(void)
{
#ifndef HAVE_MPFR
    printf("MPFR is not installed (libmpfr-dev): not compared\n");
#endif
#ifndef HAVE_MPFI
    printf("MPFI is not installed (libmpfi-dev): not compared\n");
#endif
#ifndef HAVE_BOOST
    printf("Boost.Interval is not installed (libboost-dev): not compared\n");
#endif
}

int main(int argc, char **argv)
{
    int rounds = rounds_given(argc, argv);
    printf("\n## Sheet jobs\n\nLeast of %d rounds, of ten times as many up to 1,024 steps over l, in turns. A ratio is the time of our sheet job over the peer's: below 1, ours is faster.\n",
           rounds);
    print_missing();
    printf("\n");
    return compare_peers(rounds) && compare_sizes(rounds) ? 0 : 1;
}
