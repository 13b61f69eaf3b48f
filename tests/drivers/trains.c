/* Test driver, not proved: compares the library's train with that of the independent
   implementation, in the answer and in every byte of the two buffers.

     trains SEED COUNT [FIRST]

   Makes COUNT random calls. Status 1 if a call differs, or if an outcome occurred too
   seldom: a train of each count that is accepted, each refusal of a sheet at each position,
   a sheet that does not fit at each position but the first, and the other refusals. */
#include <string.h>

#include "coupling.h"
#include "draw.h"
#include "run.h"
#include "train_draw.h"

/* The columns of the methods, then those of a sheet that does not fit, by method. */
static const char *const columns[] = {"method 1", "method 3", "method 4", "method 5", "method 7", "other",
                                      "1, no fit", "3, no fit", "4, no fit", "5, no fit", "7, no fit", NULL};
enum { NO_FIT_COLUMN = 6, NO_FIT = METHODS << NO_FIT_COLUMN };

#define ACCEPTED(sheets) {.number = 0, .matrix = sheets, .met_by = METHODS}
#define MISFIT(position) {.number = 1, .matrix = position, .met_by = NO_FIT}

static struct outcome outcomes[] = {
    ACCEPTED(1), ACCEPTED(2), ACCEPTED(3), ACCEPTED(4), ACCEPTED(5), ACCEPTED(6), ACCEPTED(7), ACCEPTED(8),
    {.number = 9, .met_by = OTHER_METHOD}, {.number = 12, .met_by = METHODS},
    SHEET_REFUSALS(1, METHODS), SHEET_REFUSALS(2, METHODS), SHEET_REFUSALS(3, METHODS), SHEET_REFUSALS(4, METHODS),
    SHEET_REFUSALS(5, METHODS), SHEET_REFUSALS(6, METHODS), SHEET_REFUSALS(7, METHODS), SHEET_REFUSALS(8, METHODS),
    MISFIT(2), MISFIT(3), MISFIT(4), MISFIT(5), MISFIT(6), MISFIT(7), MISFIT(8),
    {.number = 5, .matrix = 9, .met_by = METHODS, .placed = true},
    {.number = 11, .matrix = 9, .met_by = METHODS},
};

static struct table table = {
    .columns = columns, .by = "method", .least = 5, .least_places = 5,
    .outcomes = outcomes, .count = sizeof outcomes / sizeof outcomes[0],
};

static struct train oracle;
static uint8_t library_sheets[GUARDED(TRAIN_BYTES)], library_out[GUARDED(BYTES)], oracle_out[GUARDED(BYTES)];

static uint32_t ask_oracle(size_t out_length)
{
    fill_bytes(oracle_out, GUARDED(BYTES));
    return oracle_train(oracle.method, oracle.count, oracle.sheets + GUARD, oracle.length, oracle_out + GUARD, out_length);
}

/* The length of out: mostly enough for every sheet; or as long as the sheet to be written,
   or too short for it by any number of bytes. */
static size_t draw_out_length(void)
{
    if (!one_in(8))
        return BYTES;
    uint32_t needed = ask_oracle(BYTES), any = any_bits();
    if (COUPLING_REFUSED(needed))
        return any % 400;
    switch (from_to(0, 2)) {
    case 0:  return needed;
    case 1:  return needed - 1;
    default: return any % needed;
    }
}

static bool agree(uint32_t *answer)
{
    draw_train(&oracle);
    size_t out_length = draw_out_length();
    memcpy(library_sheets, oracle.sheets, GUARDED(oracle.length));
    fill_bytes(library_out, GUARDED(BYTES));
    uint32_t given = coupling_train(oracle.method, oracle.count, library_sheets + GUARD, oracle.length, library_out + GUARD, out_length);
    *answer = ask_oracle(out_length);
    bool same = same_number("answer", given, *answer);
    same = same_bytes("sheets", library_sheets, oracle.sheets, GUARDED(oracle.length)) && same;
    return same_bytes("out", library_out, oracle_out, GUARDED(BYTES)) && same;
}

/* An accepted train is counted as refusal none with its number of sheets as the matrix. */
static void count_train(uint32_t answer)
{
    bool misfit = oracle.misfit != 0 && answer == 1000000 + 10000 * oracle.misfit;
    int column = method_column(oracle.method) + (misfit ? NO_FIT_COLUMN : 0);
    count_outcome(&table, column, COUPLING_REFUSED(answer) ? answer : 10000 * oracle.count);
}

int main(int argc, char **argv)
{
    struct run run = run_of(argc - 1, argv + 1);
    for (uint64_t index = run.first; index < run.first + run.count; index++) {
        uint32_t answer;
        start_draws(run.seed, index);
        end_call(index, agree(&answer));
        count_train(answer);
    }
    return end_run("trains", &table);
}
