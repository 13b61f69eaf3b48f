/* Worn couplings: two class sheets are read with a mill's own eight wear amounts and multiplied, and each range of the product is printed. A
   refusal is told with what it is about. Usage: amounts LOAD A.sheet B.sheet. Valid as C++ too. */
#include <stdio.h>
#include <string.h>
#include "coupling.h"
#include "coupling_sentences.h"

#define CELLS COUPLING_CELLS_MAX

/* One byte more than a load or the longest sheet has, so that a longer file is refused. */
static uint8_t load[COUPLING_LOAD_BYTES + 1], sheet[COUPLING_SHEET_MAX + 1];
static uint32_t lowers[3][CELLS], uppers[3][CELLS], work[4][CELLS]; /* bounds of A, B and the product */

/* The length of a file, of which at most so many bytes are read. No bytes, where there is no such file, are refused too. */
static size_t get(uint8_t *bytes, size_t most, const char *name)
{
    FILE *file = fopen(name, "rb");
    size_t length = file ? fread(bytes, 1, most, file) : 0;
    if (file) fclose(file);
    return length;
}

/* Prints a refusal with what it is about. Returns the exit status. */
static int tell(uint32_t r, const char *about)
{
    printf("refused: %s; %s, row %u, column %u\n", coupling_sentence(COUPLING_NUMBER(r)), about, COUPLING_ROW(r), COUPLING_COLUMN(r));
    return 1;
}

int main(int argc, char **argv)
{
    const uint8_t good[16] = {0, 0, 1, 1, 1}; /* a sheet of one cell, [0, 0]: with it only the load can be refused */
    uint32_t rows[2], columns[2];
    if (argc != 4) {
        printf("usage: amounts LOAD A.sheet B.sheet\n");
        return 1;
    }
    size_t load_len = get(load, sizeof load, argv[1]);
    uint32_t r = coupling_read_with(load, load_len, good, sizeof good, lowers[0], CELLS, uppers[0], CELLS);
    if (COUPLING_REFUSED(r)) return tell(r, argv[1]);
    for (int i = 0; i < 2; i++) {
        size_t sheet_len = get(sheet, sizeof sheet, argv[2 + i]);
        r = coupling_read_with(load, load_len, sheet, sheet_len, lowers[i], CELLS, uppers[i], CELLS);
        if (COUPLING_REFUSED(r)) return tell(r, argv[2 + i]);
        rows[i] = COUPLING_READ_ROWS(r);
        columns[i] = COUPLING_READ_COLUMNS(r);
    }
    r = coupling_product(1, rows[0], columns[0], rows[1], columns[1], lowers[0], CELLS, uppers[0], CELLS, lowers[1], CELLS, uppers[1], CELLS,
                         work[0], CELLS, work[1], CELLS, work[2], CELLS, work[3], CELLS, lowers[2], CELLS, uppers[2], CELLS);
    if (COUPLING_REFUSED(r)) return tell(r, COUPLING_MATRIX(r) == 2 ? argv[3] : "the product");
    for (uint32_t i = 0; i < rows[0] * columns[1]; i++) {
        float low, high;
        memcpy(&low, &lowers[2][i], sizeof low);
        memcpy(&high, &uppers[2][i], sizeof high);
        printf("motor %u, bar %u: [%.9g, %.9g]\n", i / columns[1], i % columns[1], low, high);
    }
    return 0;
}
