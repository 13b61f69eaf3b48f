/* Test driver, not proved: compares the library's two conversions with those of the
   independent implementation, in the answer, in both words that are lent for writing,
   and in the guard words around them. Each pair of midpoint and radius has to enclose the
   bounds, and no such pair of numbers may have a smaller radius.

     conversions SEED COUNT [FIRST]   all pairs of the edge patterns, unless FIRST is
                                      given, then COUNT random pairs; each pair is
                                      converted both ways

   Status 1 if a call differs, or if a refusal occurred too seldom. */
#include <inttypes.h>
#include <stdio.h>

#include "coupling.h"
#include "draw.h"
#include "lent.h"
#include "numbers.h"
#include "run.h"

static const char *const columns[] = {"to_midrad", "to_bounds", NULL};

/* Bounds to midpoint and radius never overflows, so refusal 5 is for the other one. */
static struct outcome outcomes[] = {
    {.number = 0, .met_by = 3}, {.number = 3, .met_by = 3}, {.number = 4, .met_by = 3}, {.number = 5, .met_by = 2},
};

static struct table table = {.columns = columns, .by = "function", .least = 100, .outcomes = outcomes, .count = 4};

typedef uint32_t conversion(uint32_t a, uint32_t b, uint32_t *first, uint32_t *second);
typedef struct refusal oracle_conversion(uint32_t a, uint32_t b, uint32_t *first, uint32_t *second);

static conversion *const library[] = {coupling_to_midrad, coupling_to_bounds};
static oracle_conversion *const oracle[] = {oracle_to_midrad, oracle_to_bounds};

/* Whether midpoint and radius enclose the bounds, with the smallest radius that can. */
static bool is_optimal(uint32_t lo, uint32_t hi, uint32_t m, uint32_t r)
{
    bool encloses = oracle_encloses(m, r, lo, hi), smallest = oracle_smallest_radius(r, lo, hi);
    if (!encloses && all_the_same())
        printf("midpoint %08" PRIX32 " and radius %08" PRIX32 " do not enclose\n", m, r);
    if (!smallest && all_the_same())
        printf("radius %08" PRIX32 " is not the smallest\n", r);
    return encloses && smallest;
}

static bool convert_alike(int column, uint32_t a, uint32_t b)
{
    uint32_t left[GUARDED(2)], expected[GUARDED(2)];
    fill_words(left, GUARDED(2));
    fill_words(expected, GUARDED(2));
    uint32_t given = library[column](a, b, &left[GUARD], &left[GUARD + 1]);
    uint32_t answer = code_of(oracle[column](a, b, &expected[GUARD], &expected[GUARD + 1]));
    count_outcome(&table, column, answer);
    bool same = same_number("answer", given, answer);
    same = same_words(columns[column], left, expected, GUARDED(2)) && same;
    if (column == 0 && given == 0)
        same = is_optimal(a, b, left[GUARD], left[GUARD + 1]) && same;
    if (!same && all_the_same())
        printf("%s of %08" PRIX32 " and %08" PRIX32 "\n", columns[column], a, b);
    return same;
}

static void compare(uint64_t index, uint32_t a, uint32_t b)
{
    for (int column = 0; column < 2; column++)
        end_call(index, convert_alike(column, a, b));
}

int main(int argc, char **argv)
{
    struct run run = run_of(argc - 1, argv + 1);
    if (argc == 3)
        for (uint64_t i = 0; i < EDGES * EDGES; i++)
            compare(i, edges[i / EDGES], edges[i % EDGES]);
    for (uint64_t i = run.first; i < run.first + run.count; i++) {
        uint32_t a, b;
        start_draws(run.seed, i);
        draw_pair(&a, &b);
        compare(i, a, b);
    }
    return end_run("conversions", &table);
}
