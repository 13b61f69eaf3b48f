/* Benchmarks, not proved: draws random matrices to be multiplied. */
#include "matrices.h"

#include "bits.h"
#include "draw.h"

const struct data_set data_sets[DATA_SETS] = {
    [LIKE_SIZE] = {"bounds of like size, 2^-5 to 2^6", 5, false},
    [ANY_SIZE] = {"bounds from 2^-40 to 2^41", 40, false},
    [NARROW] = {"narrow cells [c, c(1 + 2^-10)], 2^-5 to 2^6", 5, true},
};

static void draw_cells(const struct data_set *set, size_t cells, uint32_t *lower, uint32_t *upper)
{
    for (size_t c = 0; c < cells; c++) {
        uint32_t p = draw_number(127 - set->spread, 127 + set->spread);
        uint32_t q = draw_number(127 - set->spread, 127 + set->spread);
        if (set->narrow)
            q = pattern_of((float)((double)value_of(p) * (1 + 0x1p-10)));
        lower[c] = value_of(p) < value_of(q) ? p : q;
        upper[c] = value_of(p) < value_of(q) ? q : p;
    }
}

void draw_matrices(const struct data_set *set, size_t m, size_t k, size_t n, struct matrices *x)
{
    x->m = m;
    x->k = k;
    x->n = n;
    draw_cells(set, m * k, x->al, x->au);
    draw_cells(set, k * n, x->bl, x->bu);
}
