/* A controller's day: two coupling sheets are multiplied, and each range of the product is held against the gap between the carriages.
   A refusal is told with its place. Usage: controller A.sheet B.sheet. Valid as C++ too. */
#include <stdio.h>
#include <string.h>
#include "coupling.h"
#include "coupling_sentences.h"

#define GAP 2.0f /* millimetres that a bar may move to either side */

/* One byte more than the longest sheet, so that a longer file is refused. No bytes, where there is no such file, are refused too. */
typedef struct { uint8_t bytes[COUPLING_SHEET_MAX + 1]; size_t length; } sheet;

static void load(sheet *s, const char *name)
{
    FILE *file = fopen(name, "rb");
    s->length = file ? fread(s->bytes, 1, sizeof s->bytes, file) : 0;
    if (file) fclose(file);
}

int main(int argc, char **argv)
{
    static sheet a, b, product;
    static uint32_t lowers[COUPLING_CELLS_MAX], uppers[COUPLING_CELLS_MAX];
    load(&a, argc > 1 ? argv[1] : "");
    load(&b, argc > 2 ? argv[2] : "");
    uint32_t r = coupling_multiply(1, a.bytes, a.length, b.bytes, b.length, product.bytes, COUPLING_SHEET_MAX);
    if (!COUPLING_REFUSED(r))
        r = coupling_read(product.bytes, r, lowers, COUPLING_CELLS_MAX, uppers, COUPLING_CELLS_MAX);
    if (COUPLING_REFUSED(r)) {
        printf("refused: %s; ", coupling_sentence(COUPLING_NUMBER(r)));
        printf("matrix %u, row %u, column %u\n", COUPLING_MATRIX(r), COUPLING_ROW(r), COUPLING_COLUMN(r));
        return 1;
    }
    for (uint32_t i = 0, columns = COUPLING_READ_COLUMNS(r); i < COUPLING_READ_ROWS(r) * columns; i++) {
        float low, high;
        memcpy(&low, &lowers[i], sizeof low);
        memcpy(&high, &uppers[i], sizeof high);
        const char *found = -GAP <= low && high <= GAP ? "stop set" : "would foul a carriage";
        printf("motor %u, bar %u: [%.9g, %.9g], %s\n", i / columns, i % columns, low, high, found);
    }
    return 0;
}
