/* Benchmarks, not proved: method 5 on the machine's floats, each operation rounded by
   the machine in the mode that is set. The parts p follow from radii, which are rounded
   up, and C and G, to nearest, from parts: so the mode goes from nearest to up twice.
   Passes are as in plain_cells.c. Called by plain_product.c. */
#include "plain_product.h"

#include <fenv.h>
#include <math.h>

#include "bits.h"

#define PASS static __attribute__((noinline)) void

/* centre, size: C and G of the result. radius: the sums that R begins with, then R.
   outer_a, outer_b: |m| + r. pa, pb: the parts. */
static float centre[CELLS], size[CELLS], radius[CELLS];
static float outer_a[CELLS], outer_b[CELLS], pa[CELLS], pb[CELLS];

/* Mode up. */
PASS outer_radii(size_t cells, const float *m, const float *r, float *outer)
{
    for (size_t c = 0; c < cells; c++)
        outer[c] = fabsf(m[c]) + r[c];
}

/* Mode up: the sums of (|mA| + rA) * (|mB| + rB). */
PASS largest(size_t m, size_t k, size_t n)
{
    for (size_t i = 0; i < m; i++)
        for (size_t j = 0; j < n; j++) {
            float sum = 0;
            for (size_t l = 0; l < k; l++)
                sum += outer_a[i * k + l] * outer_b[l * n + j];
            radius[i * n + j] = sum;
        }
}

/* Adds x[0] * y[0], x[1] * y[n] and so on to *c, and their magnitudes to *g. */
static inline void dot_both(size_t k, size_t n, const float *x, const float *y, float *c, float *g)
{
    for (size_t l = 0; l < k; l++) {
        float product = x[l] * y[l * n];
        *c += product;
        *g += fabsf(product);
    }
}

/* Mode nearest: C and G. To nearest, |x * y| and |x| * |y| are the same. */
PASS centres(size_t m, size_t k, size_t n, const struct floats *f)
{
    for (size_t i = 0; i < m; i++)
        for (size_t j = 0; j < n; j++) {
            float c = 0, g = 0;
            dot_both(k, n, f->ma + i * k, f->mb + j, &c, &g);
            dot_both(k, n, pa + i * k, pb + j, &c, &g);
            centre[i * n + j] = c;
            size[i * n + j] = g;
        }
}

/* The distance to the next larger number, for g at or above 0: 2^-23 of the power of two
   in g, and one unit below 2^-126. Infinite for a g that is not finite. */
static inline float spacing(float g)
{
    float s = value_of(pattern_of(g) & 0x7F800000) * 0x1p-23f;
    return s > 0x1p-149f ? s : 0x1p-149f;
}

/* Mode up: R. */
PASS radii(size_t cells, size_t k)
{
    for (size_t c = 0; c < cells; c++) {
        float error = (float)(k + 1) * spacing(size[c]) + 0x1p-126f;
        radius[c] = radius[c] - size[c] + 2 * error;
    }
}

/* Mode up: C - R rounded down is the opposite of R - C rounded up. */
PASS bounds(size_t cells, float *lo, float *up)
{
    for (size_t c = 0; c < cells; c++) {
        lo[c] = -(radius[c] - centre[c]);
        up[c] = centre[c] + radius[c];
    }
}

void plain_nearest(size_t m, size_t k, size_t n, struct floats *f)
{
    plain_midpoints(m * k, f->al, f->au, f->ma);
    plain_midpoints(k * n, f->bl, f->bu, f->mb);
    fesetround(FE_UPWARD);
    plain_distances(m * k, f->al, f->au, f->ma, f->ra);
    plain_distances(k * n, f->bl, f->bu, f->mb, f->rb);
    plain_parts(m * k, f->ma, f->ra, pa);
    plain_parts(k * n, f->mb, f->rb, pb);
    outer_radii(m * k, f->ma, f->ra, outer_a);
    outer_radii(k * n, f->mb, f->rb, outer_b);
    largest(m, k, n);
    fesetround(FE_TONEAREST);
    centres(m, k, n, f);
    fesetround(FE_UPWARD);
    radii(m * n, k);
    bounds(m * n, f->lo, f->up);
}
