/* Benchmarks, not proved: draws a train of sheets with random narrow cells. No job and
   no train refuses them: cells are up to about 2^6, and so the entries of the last
   product up to about 2^(8 * 6) * 32^7 = 2^83, far below the largest number. */
#include "train.h"

bool draw_train(size_t size, struct train *train)
{
    static struct matrices x; /* two matrices at a time */
    size_t cells = size * size, length = 16 * (cells + 1);
    bool written = true;
    train->size = size;
    train->length = length;
    for (size_t i = 0; i < SHEETS; i += 2) {
        uint8_t *a = train->bytes + i * length, *b = a + length;
        draw_matrices(&data_sets[NARROW], size, size, size, &x);
        written &= coupling_write(size, size, x.al, cells, x.au, cells, a, length) == length;
        written &= coupling_write(size, size, x.bl, cells, x.bu, cells, b, length) == length;
    }
    return written;
}
