/* Benchmarks, not proved: times reading a full coupling sheet of 1,024 cells, an amount sheet
   or a class sheet, the latter with the fixed wear amounts and with a load of them, and
   writing it, by the library and by plain C (plain_sheet.c), in turns.

   sheets [rounds]

   Runs ten times as many rounds, since a round is short, and takes the least time.
   Stops with status 1 where the two results differ. */
#include "timing.h"

#include <string.h>

#include "../tests/oracle/oracle.h"
#include "../tests/oracle/records.h"
#include "coupling.h"
#include "matrices.h"
#include "table.h"

struct cells {
    uint32_t lowers[CELLS], uppers[CELLS];
};

struct pair {
    double ours, plain;
};

static uint8_t given[COUPLING_SHEET_MAX], our_sheet[COUPLING_SHEET_MAX], plain_sheet[COUPLING_SHEET_MAX];
static uint8_t load[COUPLING_LOAD_BYTES];
static struct cells our_cells, plain_cells;

/* The arguments of a read. */
#define SHEET_AND_BOUNDS(cells) given, COUPLING_SHEET_MAX, cells.lowers, CELLS, cells.uppers, CELLS

/* The fixed amounts as a load. */
static void put_load(void)
{
    for (uint32_t c = 0; c < 8; c++)
        put_number(load + 4 * c, fixed_amount(c), 4);
}

static bool read_alike(uint32_t sizes, uint32_t refusal)
{
    return COUPLING_READ_ROWS(sizes) == SIZE && COUPLING_READ_COLUMNS(sizes) == SIZE && refusal == 0
        && memcmp(&our_cells, &plain_cells, sizeof our_cells) == 0;
}

static bool time_read(struct pair *least)
{
    size_t rows, columns;
    double start = now();
    uint32_t sizes = coupling_read(SHEET_AND_BOUNDS(our_cells));
    double between = now();
    struct refusal refusal = oracle_read(SHEET_AND_BOUNDS(plain_cells), &rows, &columns);
    keep_least(&least->plain, now() - between);
    keep_least(&least->ours, between - start);
    return read_alike(sizes, refusal.number);
}

static bool time_read_with(struct pair *least)
{
    size_t rows, columns;
    double start = now();
    uint32_t sizes = coupling_read_with(load, sizeof load, SHEET_AND_BOUNDS(our_cells));
    double between = now();
    struct refusal refusal = oracle_read_with(load, sizeof load, SHEET_AND_BOUNDS(plain_cells), &rows, &columns);
    keep_least(&least->plain, now() - between);
    keep_least(&least->ours, between - start);
    return read_alike(sizes, refusal.number);
}

/* Writes the cells that were read last. */
static bool time_write(struct pair *least)
{
    size_t written;
    double start = now();
    uint32_t length = coupling_write(SIZE, SIZE, our_cells.lowers, CELLS, our_cells.uppers, CELLS, our_sheet, COUPLING_SHEET_MAX);
    double between = now();
    oracle_write(SIZE, SIZE, plain_cells.lowers, CELLS, plain_cells.uppers, CELLS, plain_sheet, COUPLING_SHEET_MAX, &written);
    keep_least(&least->plain, now() - between);
    keep_least(&least->ours, between - start);
    return length == COUPLING_SHEET_MAX && written == COUPLING_SHEET_MAX && memcmp(our_sheet, plain_sheet, COUPLING_SHEET_MAX) == 0;
}

static bool print_row(const char *name, bool (*time)(struct pair *), int rounds)
{
    struct pair least = {LONGEST, LONGEST};
    for (int round = 0; round < rounds; round++)
        if (!time(&least)) {
            printf("%s: the answers differ\n", name);
            return false;
        }
    printf("| %-27s |", name);
    print_number(least.ours / CELLS);
    print_number(least.plain / CELLS);
    print_ratio(least.ours, least.plain);
    printf("\n");
    return true;
}

/* A read of the full sheet of this kind, worn or not. */
static bool print_read(const char *name, uint32_t kind, bool worn, int rounds)
{
    put_full_of(kind, given, worn);
    return print_row(name, time_read, rounds);
}

int main(int argc, char **argv)
{
    int rounds = 10 * rounds_given(argc, argv);
    printf("\n## Sheets\n\nA sheet of %d cells, least of %d rounds, in turns.\n\n", CELLS, rounds);
    printf("| nanoseconds a cell          |   ours | plain C | ours / plain C |\n");
    print_rule(3);
    put_load();
    return print_read("read, amount 0", AMOUNT_SHEET, false, rounds) && print_read("read, amounts", AMOUNT_SHEET, true, rounds)
        && print_read("read, class 0", CLASS_SHEET, false, rounds) && print_read("read, classes 0 to 7", CLASS_SHEET, true, rounds)
        && print_row("the same with a load", time_read_with, rounds) && print_row("write", time_write, rounds) ? 0 : 1;
}
