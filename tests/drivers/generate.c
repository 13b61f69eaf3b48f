/* Test drivers, not proved: prints test vectors of the twelve operations, with the
   results of the independent implementation, one a line, as vector.h describes.

     generate edges              every operation and direction on every ordered
                                 pair of the edge patterns
     generate random SEED COUNT  COUNT lines of mixed kinds, repeatable

   Status 1 if the output could not be written. */
#include <stdio.h>
#include <string.h>

#include "draw.h"
#include "numbers.h"
#include "run.h"
#include "vector.h"

static void print_edges(void)
{
    for (int operation = ADD; operation <= MIDPOINT; operation++)
        for (int direction = DOWN; direction <= NEAR; direction++)
            for (size_t i = 0; i < EDGES; i++)
                for (size_t j = 0; j < EDGES; j++)
                    print_vector((enum operation)operation, (enum direction)direction, edges[i], edges[j]);
}

static void print_random(uint64_t seed, uint64_t count)
{
    start_draws(seed, 0);
    for (uint64_t i = 0; i < count; i++) {
        uint32_t a, b;
        int operation = from_to(ADD, MIDPOINT);
        int direction = from_to(DOWN, NEAR);
        draw_pair(&a, &b);
        print_vector((enum operation)operation, (enum direction)direction, a, b);
    }
}

int main(int argc, char **argv)
{
    if (argc == 2 && strcmp(argv[1], "edges") == 0)
        print_edges();
    else if (argc == 4 && strcmp(argv[1], "random") == 0)
        print_random(number_of(argv[2]), number_of(argv[3]));
    else {
        fprintf(stderr, "usage: generate edges | generate random SEED COUNT\n");
        return 2;
    }
    return fflush(stdout) == 0 && !ferror(stdout) ? 0 : 1;
}
