/* A train of couplings: the sheets of motor to lever, lever to rocker and rocker to bar, or up to 8 others, are put back to back and multiplied
   by one call, and each range of the product is printed. A refusal is told with the sheet that it names. Usage: train A.sheet B.sheet ..
   Valid as C++ too. */
#include <stdio.h>
#include <string.h>
#include "coupling.h"
#include "coupling_sentences.h"

/* One byte more than the longest train, so that a longer last file is refused. */
static uint8_t sheets[COUPLING_SHEETS_MAX * COUPLING_SHEET_MAX + 1], product[COUPLING_SHEET_MAX];
static uint32_t lowers[COUPLING_CELLS_MAX], uppers[COUPLING_CELLS_MAX];

/* Prints a refusal with what it names: the sheet at a position, a product, or neither. Returns the exit status. */
static int tell(uint32_t r)
{
    uint32_t position = COUPLING_MATRIX(r);
    printf("refused: %s", coupling_sentence(COUPLING_NUMBER(r)));
    if (position > COUPLING_SHEETS_MAX)
        printf("; a product, row %u, column %u", COUPLING_ROW(r), COUPLING_COLUMN(r));
    else if (position > 0)
        printf("; sheet %u, row %u, column %u", position, COUPLING_ROW(r), COUPLING_COLUMN(r));
    printf("\n");
    return 1;
}

int main(int argc, char **argv)
{
    uint32_t count = argc > 1 ? (uint32_t)argc - 1 : 0;
    size_t length = 0;
    for (uint32_t i = 1; i <= count; i++) {
        FILE *file = fopen(argv[i], "rb");
        if (!file) {
            printf("%s cannot be opened\n", argv[i]);
            return 1;
        }
        length += fread(sheets + length, 1, sizeof sheets - length, file);
        fclose(file);
    }
    uint32_t r = coupling_train(1, count, sheets, length, product, sizeof product);
    if (!COUPLING_REFUSED(r))
        r = coupling_read(product, r, lowers, COUPLING_CELLS_MAX, uppers, COUPLING_CELLS_MAX);
    if (COUPLING_REFUSED(r))
        return tell(r);
    for (uint32_t i = 0, columns = COUPLING_READ_COLUMNS(r); i < COUPLING_READ_ROWS(r) * columns; i++) {
        float low, high;
        memcpy(&low, &lowers[i], sizeof low);
        memcpy(&high, &uppers[i], sizeof high);
        printf("motor %u, bar %u: [%.9g, %.9g]\n", i / columns, i % columns, low, high);
    }
    return 0;
}
