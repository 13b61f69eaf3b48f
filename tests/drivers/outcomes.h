/* Test drivers, not proved: a table of the outcomes of the calls of a run: for each
   refusal, how often it occurred by each function, method or kind of sheet, and at how many
   places (row and column; of a running entry, the number of pairs) at least by each. */
#ifndef OUTCOMES_H
#define OUTCOMES_H

#include <stdbool.h>
#include <stddef.h>
#include <stdint.h>

#define COLUMNS 12  /* the most columns of a table */
#define PLACES 32   /* rows and columns of the largest matrix */

/* An outcome: the number and the matrix of a refusal; both are 0 for an accepted call, but
   the matrix of an accepted train is its number of sheets. */
struct outcome {
    uint32_t number, matrix;
    unsigned met_by;            /* a bit for each column in which it can occur */
    bool placed;                /* whether it has a place, as a row and a column */
    unsigned long calls[COLUMNS];
    unsigned at[PLACES][PLACES];    /* a bit for each column in which it occurred there */
};

struct table {
    const char *const *columns;         /* their names, then NULL */
    const char *by;                     /* what a column is, such as "method", or NULL */
    unsigned long least;                /* required calls with each outcome in each of its columns */
    int least_places;                   /* required places of each outcome that has one, likewise */
    const char *places;                 /* what places are, or NULL where they are those of cells */
    struct outcome *outcomes;
    size_t count;
    unsigned long strange;              /* calls with an outcome that is not in the table */
};

/* Counts a call by its column, from 0, and the code of its refusal, or 0, with its place. */
void count_outcome(struct table *table, int column, uint32_t code);

void print_table(const struct table *table);

/* Whether every outcome occurred often enough; prints those that did not. */
bool met_enough(const struct table *table);

/* Prints the rest of a line: how many refusals there are, and how often each occurred. */
void print_summary(const struct table *table);

/* For products, jobs and trains: one column for each method, and one for all other numbers. */
extern const char *const method_columns[];
enum { METHODS = 0x1F, OTHER_METHOD = 0x20 };
int method_column(uint32_t method);

/* The refusals of sheet m, in a job, in a train or in the printed product. */
#define SHEET_REFUSALS(m, columns) \
    {.number = 6, .matrix = m, .met_by = columns}, {.number = 1, .matrix = m, .met_by = columns}, \
    {.number = 7, .matrix = m, .met_by = columns}, {.number = 8, .matrix = m, .met_by = columns}, \
    {.number = 10, .matrix = m, .met_by = columns, .placed = true}, {.number = 14, .matrix = m, .met_by = columns, .placed = true}, \
    {.number = 3, .matrix = m, .met_by = columns, .placed = true}, {.number = 4, .matrix = m, .met_by = columns, .placed = true}, \
    {.number = 5, .matrix = m, .met_by = columns, .placed = true}

#endif
