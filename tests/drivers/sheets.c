/* Test driver, not proved: compares the library's reader and writer of sheets with those
   of the independent implementation, in the answer, in every byte of the sheet and of the
   load, and in every word of the bounds.

     sheets read SEED COUNT [FIRST]    COUNT random class sheets and amount sheets, most of
                                       them damaged
     sheets with SEED COUNT [FIRST]    COUNT such sheets, read with random loads, the wear
                                       amounts of a mill
     sheets write SEED COUNT [FIRST]   COUNT random matrices, some with faulty cells
     sheets stored                     stored sheets from standard input (sheet_stored.h)

   Status 1 if a call differs, or if a refusal occurred too seldom. */
#include <stdio.h>
#include <string.h>

#include "coupling.h"
#include "draw.h"
#include "run.h"
#include "sheet_call_draw.h"
#include "sheet_stored.h"

/* Of a read, by the kind of the sheet (sheet_call_draw.h). */
enum { CLASS = 1 << CLASS_COLUMN, AMOUNT = 1 << AMOUNT_COLUMN, BOTH = CLASS | AMOUNT, NO_KIND = 1 << NO_KIND_COLUMN };

static struct outcome read_outcomes[] = {
    {.number = 0, .met_by = BOTH}, {.number = 1, .met_by = BOTH}, {.number = 2, .met_by = BOTH},
    {.number = 3, .met_by = BOTH, .placed = true}, {.number = 4, .met_by = BOTH, .placed = true},
    {.number = 5, .met_by = BOTH, .placed = true}, {.number = 6, .met_by = BOTH | NO_KIND}, {.number = 7, .met_by = BOTH},
    {.number = 8, .met_by = BOTH}, {.number = 10, .met_by = CLASS, .placed = true}, {.number = 14, .met_by = AMOUNT, .placed = true},
};

static struct outcome write_outcomes[] = {
    {.number = 0, .met_by = 1}, {.number = 1, .met_by = 1}, {.number = 2, .met_by = 1},
    {.number = 3, .met_by = 1, .placed = true}, {.number = 4, .met_by = 1, .placed = true}, {.number = 11, .met_by = 1},
};

/* Of a read with a load (sheet_call_draw.h): 3 and 6 of the load are other outcomes than 3
   and 6 of the sheet; where the sheet is of no kind, there is no 3 of it. */
enum {
    LOAD = BOTH << LOAD_COLUMN | 1 << WITH_NO_KIND_COLUMN, ANY_SHEET = BOTH << SHEET_COLUMN,
    SHEETS = ANY_SHEET | BOTH << MODERATE_COLUMN | BOTH << LIMIT_COLUMN,
};

static struct outcome with_outcomes[] = {
    {.number = 6, .met_by = LOAD}, {.number = 3, .met_by = LOAD}, {.number = 13, .met_by = LOAD},
    {.number = 0, .met_by = SHEETS}, {.number = 1, .met_by = ANY_SHEET}, {.number = 2, .met_by = SHEETS},
    {.number = 3, .met_by = ANY_SHEET, .placed = true}, {.number = 4, .met_by = ANY_SHEET, .placed = true},
    {.number = 5, .met_by = SHEETS, .placed = true}, {.number = 6, .met_by = ANY_SHEET}, {.number = 7, .met_by = ANY_SHEET},
    {.number = 8, .met_by = ANY_SHEET}, {.number = 10, .met_by = CLASS << SHEET_COLUMN, .placed = true},
    {.number = 14, .met_by = AMOUNT << SHEET_COLUMN, .placed = true},
};

static const char *const read_columns[] = {"class sheets", "amount sheets", "no kind", NULL};
static const char *const write_columns[] = {"calls", NULL};
static const char *const with_columns[] = {"class, load", "amount, load", "class, sheet", "amount, sheet", "class, moderate",
                                           "amount, moderate", "class, limit", "amount, limit", "no kind", NULL};

static struct table read_table = {
    .columns = read_columns, .by = "kind of sheet", .least = 100, .least_places = 30, .outcomes = read_outcomes, .count = 11,
};

static struct table write_table = {
    .columns = write_columns, .least = 100, .least_places = 30, .outcomes = write_outcomes, .count = 6,
};

static struct table with_table = {
    .columns = with_columns, .by = "kind of sheet", .least = 100, .least_places = 30, .outcomes = with_outcomes, .count = 14,
};

/* What is compared: the word that asks for it, what the calls are, how they are drawn and
   made, and their outcomes. */
static const struct comparison {
    const char *word, *calls;
    int (*draw)(struct sheet_call *);
    bool (*alike)(struct sheet_call *, uint32_t *);
    struct table *table;
} comparisons[] = {
    {"read", "sheets read", draw_read, read_alike, &read_table},
    {"with", "sheets read with amounts of a mill", draw_read_with, read_with_alike, &with_table},
    {"write", "matrices written", draw_write, write_alike, &write_table},
};

static int compare(struct run run, const struct comparison *comparison)
{
    static struct sheet_call call;
    for (uint64_t index = run.first; index < run.first + run.count; index++) {
        uint32_t answer;
        start_draws(run.seed, index);
        fill_sheet_call(&call);
        int column = comparison->draw(&call);
        end_call(index, comparison->alike(&call, &answer));
        count_outcome(comparison->table, column, COUPLING_REFUSED(answer) ? answer : 0);
    }
    return end_run(comparison->calls, comparison->table);
}

int main(int argc, char **argv)
{
    if (argc == 2 && strcmp(argv[1], "stored") == 0)
        return answer_stored_sheets();
    for (size_t i = 0; i < sizeof comparisons / sizeof comparisons[0]; i++)
        if (argc > 2 && strcmp(argv[1], comparisons[i].word) == 0)
            return compare(run_of(argc - 2, argv + 2), &comparisons[i]);
    fprintf(stderr, "usage: sheets read|with|write SEED COUNT [FIRST], or sheets stored\n");
    return 2;
}
