/* Benchmarks, not proved: how the time of the sheet job grows with the inner size k
   and with all three sizes, compared with plain C over 64-bit integers. */
#include "compare.h"
#include "measure.h"
#include "table.h"

static const struct peer *const peers[] = {&peer_job, &peer_integers};

#define PEERS 2

static bool print_size(const char *name, size_t m, size_t k, size_t n, int rounds)
{
    static struct matrices x;
    static struct times times;
    draw_matrices(&data_sets[NARROW], m, k, n, &x);
    if (!measure(&x, peers, PEERS, rounds, &times))
        return false;
    printf("| %s |", name);
    for (int method = 0; method < METHODS; method++) {
        double ours = times.least[0][method];
        print_number(ours * 1e-3);
        print_number(ours / (double)(m * k * n));
        print_ratio(ours, times.least[1][method]);
    }
    printf("\n");
    return true;
}

static void print_head(const char *size)
{
    printf("%s, %s\n\n| %-12s |", size, data_sets[NARROW].title, "size; method");
    for (int method = 0; method < METHODS; method++)
        printf(" %6d | a step |  ratio |", methods[method]);
    printf("\n");
    print_rule(3 * METHODS);
}

static bool grow(bool cubes, int rounds)
{
    print_head(cubes ? "n by n by n" : "32 by k by 32");
    for (size_t k = 1; k <= SIZE; k *= 2) {
        char name[40];
        size_t outer = cubes ? k : SIZE;
        snprintf(name, sizeof name, "%2zu x %2zu x %2zu", outer, k, outer);
        if (!print_size(name, outer, k, outer, rounds))
            return false;
    }
    printf("\n");
    return true;
}

bool compare_sizes(int rounds)
{
    printf("Microseconds a job, nanoseconds a step over l (the job over all its steps), and ours / plain C:\n\n");
    return grow(false, rounds) && grow(true, rounds);
}
