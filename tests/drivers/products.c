/* Test driver, not proved: compares the library's products with those of the independent
   implementation, in the answer and in every word of the ten slices.

     products known                products with a known result
     products SEED COUNT [FIRST]   COUNT random calls

   Status 1 if a call differs, or if a refusal occurred too seldom. */
#include <stdio.h>
#include <string.h>

#include "draw.h"
#include "product_draw.h"
#include "product_known.h"
#include "run.h"

static struct outcome outcomes[] = {
    {.number = 0, .met_by = METHODS}, {.number = 9, .met_by = OTHER_METHOD},
    {.number = 1, .matrix = 1, .met_by = METHODS}, {.number = 1, .matrix = 2, .met_by = METHODS},
    {.number = 2, .matrix = 1, .met_by = METHODS}, {.number = 2, .matrix = 2, .met_by = METHODS},
    {.number = 2, .matrix = 0, .met_by = METHODS}, {.number = 2, .matrix = 3, .met_by = METHODS},
    {.number = 3, .matrix = 1, .met_by = METHODS, .placed = true},
    {.number = 3, .matrix = 2, .met_by = METHODS, .placed = true},
    {.number = 4, .matrix = 1, .met_by = METHODS, .placed = true},
    {.number = 4, .matrix = 2, .met_by = METHODS, .placed = true},
    {.number = 5, .matrix = 3, .met_by = METHODS, .placed = true},
};

static struct table table = {
    .columns = method_columns, .by = "method", .least = 5, .least_places = 15,
    .outcomes = outcomes, .count = sizeof outcomes / sizeof outcomes[0],
};

static struct call call;
static struct answer library, oracle;

static bool agree(void)
{
    ask_library(&call, &library);
    ask_oracle(&call, &oracle);
    bool same = same_answer(&library, &oracle);
    if (!same && all_the_same())
        printf("method %u, A %zu by %zu, B %zu by %zu\n", call.method, call.a_rows, call.a_columns, call.b_rows, call.b_columns);
    return same;
}

int main(int argc, char **argv)
{
    if (argc == 2 && strcmp(argv[1], "known") == 0)
        return check_known_products() == 0 ? 0 : 1;
    struct run run = run_of(argc - 1, argv + 1);
    for (uint64_t index = run.first; index < run.first + run.count; index++) {
        start_draws(run.seed, index);
        draw_call(&call);
        end_call(index, agree());
        count_outcome(&table, method_column(call.method), oracle.code);
    }
    return end_run("products", &table);
}
