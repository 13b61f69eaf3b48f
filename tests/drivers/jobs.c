/* Test driver, not proved: compares the library's sheet job with that of the independent
   implementation, in the answer and in every byte of the three buffers.

     jobs SEED COUNT [FIRST]

   Makes COUNT random calls. Status 1 if a call differs, or if a refusal occurred too
   seldom. */
#include "coupling.h"
#include "draw.h"
#include "job_draw.h"
#include "run.h"

static struct outcome outcomes[] = {
    {.number = 0, .met_by = METHODS}, {.number = 9, .met_by = OTHER_METHOD},
    SHEET_REFUSALS(1, METHODS), SHEET_REFUSALS(2, METHODS),
    {.number = 5, .matrix = 3, .met_by = METHODS, .placed = true},
    {.number = 11, .matrix = 3, .met_by = METHODS},
};

static struct table table = {
    .columns = method_columns, .by = "method", .least = 5, .least_places = 10,
    .outcomes = outcomes, .count = sizeof outcomes / sizeof outcomes[0],
};

static struct job library, oracle;
static uint8_t library_out[GUARDED(BYTES)], oracle_out[GUARDED(BYTES)];

static bool agree(uint32_t *answer)
{
    draw_job(&oracle);
    size_t out_length = one_in(10) ? any_bits() % 400 : BYTES;
    library = oracle;
    fill_bytes(library_out, GUARDED(BYTES));
    fill_bytes(oracle_out, GUARDED(BYTES));
    uint32_t given = coupling_multiply(library.method, library.a + GUARD, library.a_length, library.b + GUARD, library.b_length,
                                       library_out + GUARD, out_length);
    *answer = oracle_job(oracle.method, oracle.a + GUARD, oracle.a_length, oracle.b + GUARD, oracle.b_length,
                         oracle_out + GUARD, out_length);
    bool same = same_number("answer", given, *answer);
    same = same_bytes("a", library.a, oracle.a, GUARDED(BYTES)) && same;
    same = same_bytes("b", library.b, oracle.b, GUARDED(BYTES)) && same;
    return same_bytes("out", library_out, oracle_out, GUARDED(BYTES)) && same;
}

int main(int argc, char **argv)
{
    struct run run = run_of(argc - 1, argv + 1);
    for (uint64_t index = run.first; index < run.first + run.count; index++) {
        uint32_t answer;
        start_draws(run.seed, index);
        end_call(index, agree(&answer));
        count_outcome(&table, method_column(oracle.method), COUPLING_REFUSED(answer) ? answer : 0);
    }
    return end_run("jobs", &table);
}
