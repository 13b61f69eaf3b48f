/* Benchmarks, not proved: prints how wide the ranges are that each method returns, on
   random products of 8 by k by 8, and by how much a cell grows when it is converted to
   midpoint and radius and back. The data are the same in each run, so that two
   versions of the library can be compared.

   widths

   Stops with status 1 where a call is refused or a width is not exact. */
#include "widths.h"

#include "table.h"

/* The inner sizes k. Products with k = ORDER are drawn first, then the cells to be
   converted, so that other sizes do not change their figures. */
enum { EIGHT = 2, SIZES = 4 };

static const size_t sizes[SIZES] = {1, 4, [EIGHT] = ORDER, 32};

static struct tally tallies[SIZES][KINDS][METHODS];
static struct trips trips[KINDS];

static bool measure_all(void)
{
    if (!measure_products(sizes[EIGHT], tallies[EIGHT]) || !measure_conversions(trips))
        return false;
    for (int size = 0; size < SIZES; size++)
        if (size != EIGHT && !measure_products(sizes[size], tallies[size]))
            return false;
    return true;
}

static void print_kinds(void)
{
    printf("\n## Widths\n\nThe width of a range or cell is its upper less its lower bound. Kinds of cells:\n\n");
    for (int kind = 0; kind < KINDS; kind++)
        printf("- %s: %s\n", kinds[kind].name, kinds[kind].meaning);
}

static void print_means(void)
{
    printf("\nProducts of %d by %d by %d, %d of each kind\n\n| mean width by method |", ORDER, ORDER, ORDER, PRODUCTS);
    for (int method = 0; method < METHODS; method++)
        printf(" %14d |", methods[method]);
    printf("\n");
    print_rule(METHODS);
    for (int kind = 0; kind < KINDS; kind++) {
        printf("| %-20s |", kinds[kind].name);
        for (int method = 0; method < METHODS; method++)
            print_mean(tallies[EIGHT][kind][method].sum / ENTRIES);
        printf("\n");
    }
}

static void print_comparison(void)
{
    printf("\nEntries, of %d of each kind, that are narrower than by method 1 (<), as wide (=) and wider (>)\n\n| method |", ENTRIES);
    for (int method = 1; method < METHODS; method++)
        printf("    %d < |    %d = |    %d > |", methods[method], methods[method], methods[method]);
    printf("\n");
    print_rule(3 * (METHODS - 1));
    for (int kind = 0; kind < KINDS; kind++) {
        printf("| %-6s |", kinds[kind].name);
        for (int method = 1; method < METHODS; method++) {
            const struct tally *t = &tallies[EIGHT][kind][method];
            printf(" %6ld | %6ld | %6ld |", t->narrower[0], t->equal[0], t->wider[0]);
        }
        printf("\n");
    }
}

/* A row: the mean widths over that by method 1, and how often method 5 is narrower. */
static void print_size(size_t k, const struct kind *kind, const struct tally *by_method)
{
    printf("| %-6s | %2zu |", kind->name, k);
    for (int method = 1; method < METHODS; method++)
        printf(" %10.7f |", by_method[method].sum / by_method[0].sum);
    for (int method = 0; method < METHODS; method++)
        if (method != FIVE)
            printf(" %6ld |", by_method[FIVE].narrower[method]);
    printf("\n");
}

static void print_sizes(void)
{
    printf("\nProducts of %d by k by %d, %d of each kind and k: the mean width by a method over that by method 1, and how many entries, of %d, are narrower by method 5 than by another\n\n",
           ORDER, ORDER, PRODUCTS, ENTRIES);
    printf("| cells  |  k |");
    for (int method = 1; method < METHODS; method++)
        printf("      %d / 1 |", methods[method]);
    for (int method = 0; method < METHODS; method++)
        if (method != FIVE)
            printf("  5 < %d |", methods[method]);
    printf("\n");
    print_rule(2 * METHODS - 1);
    for (int kind = 0; kind < KINDS; kind++)
        for (int size = 0; size < SIZES; size++)
            print_size(sizes[size], &kinds[kind], tallies[size][kind]);
}

static void print_trips(void)
{
    printf("\n%d cells of each kind, converted to midpoint and radius and back\n\n", CONVERSIONS);
    printf("| mean of |          width |         radius |         growth | unchanged |\n");
    print_rule(4);
    for (int kind = 0; kind < KINDS; kind++) {
        printf("| %-7s |", kinds[kind].name);
        print_mean(trips[kind].width / CONVERSIONS);
        print_mean(trips[kind].radius / CONVERSIONS);
        print_mean(trips[kind].growth / CONVERSIONS);
        printf(" %9ld |\n", trips[kind].unchanged);
    }
}

int main(void)
{
    if (!measure_all()) {
        printf("a call was refused, or a width is not exact in binary64\n");
        return 1;
    }
    print_kinds();
    print_means();
    print_comparison();
    print_sizes();
    print_trips();
    return 0;
}
