/* Benchmarks, not proved: draws the cells that running entries take. No entry is
   refused: its 32 products are up to about 2^82. */
#include "../tests/oracle/records.h"
#include "draw.h"
#include "running.h"

static void draw_classes(bool worn, uint32_t *classes)
{
    for (size_t c = 0; c < CELLS; c++)
        classes[c] = worn ? (uint32_t)(draw() % 8) : 0;
}

static void widen(const uint32_t *classes, uint32_t *lower, uint32_t *upper)
{
    for (size_t c = 0; c < CELLS; c++) {
        lower[c] = coupling_sub_down(lower[c], fixed_amount(classes[c]));
        upper[c] = coupling_add_up(upper[c], fixed_amount(classes[c]));
    }
}

void draw_gauges(const struct data_set *set, bool worn, struct gauges *x)
{
    draw_matrices(set, SIZE, SIZE, SIZE, &x->gauged);
    draw_classes(worn, x->a_class);
    draw_classes(worn, x->b_class);
    x->widened = x->gauged;
    widen(x->a_class, x->widened.al, x->widened.au);
    widen(x->b_class, x->widened.bl, x->widened.bu);
}
