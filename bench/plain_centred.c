/* Benchmarks, not proved: methods 3, 4 and 7 on the machine's floats, each operation
   rounded by the machine in the mode that is set. The steps of a method are grouped
   into passes of one mode each, so that a product sets the mode only a few times; those
   over single cells are in plain_cells.c. Called by plain_product.c. */
#include "plain_product.h"

#include <fenv.h>
#include <math.h>
#include <string.h>

#define PASS static __attribute__((noinline)) void

/* radius: the radii of the result. wide: |mB| + rB. inner: method 3's rB', or rB by
   the other methods. pa, pb: method 7's parts. */
static float radius[CELLS], wide[CELLS], inner[CELLS], pa[CELLS], pb[CELLS];

/* start + x[0] * y[0] + x[1] * y[n] + .., added from the left. */
static inline float dot(size_t k, size_t n, const float *x, const float *y, float start)
{
    for (size_t l = 0; l < k; l++)
        start += x[l] * y[l * n];
    return start;
}

static inline float dot_magnitudes(size_t k, size_t n, const float *x, const float *y, float start)
{
    for (size_t l = 0; l < k; l++)
        start += fabsf(x[l]) * y[l * n];
    return start;
}

/* Mode up: first |mB| + rB and rB' for each cell of B, then the radii of the result. */
PASS radii(int method, size_t m, size_t k, size_t n, struct floats *f)
{
    float factor = (float)(k + 2) * 0x1p-24f;
    for (size_t c = 0; c < k * n; c++) {
        wide[c] = fabsf(f->mb[c]) + f->rb[c];
        inner[c] = method == 3 ? factor * fabsf(f->mb[c]) + f->rb[c] : f->rb[c];
    }
    for (size_t i = 0; i < m; i++)
        for (size_t j = 0; j < n; j++) {
            float sum = dot_magnitudes(k, n, f->ma + i * k, inner + j, 0);
            if (method == 3)
                sum += 0x1p-125f;
            sum = dot(k, n, f->ra + i * k, wide + j, sum);
            if (method == 7)
                for (size_t l = 0; l < k; l++)
                    sum += -fabsf(pa[i * k + l]) * fabsf(pb[l * n + j]);
            radius[i * n + j] = sum;
        }
}

/* In the mode that is set: the sums of mA * mB, by method 7 continued with pA * pB. */
PASS centres(int method, size_t m, size_t k, size_t n, const struct floats *f, float *out)
{
    for (size_t i = 0; i < m; i++)
        for (size_t j = 0; j < n; j++) {
            float sum = dot(k, n, f->ma + i * k, f->mb + j, 0);
            if (method == 7)
                sum = dot(k, n, pa + i * k, pb + j, sum);
            out[i * n + j] = sum;
        }
}

PASS add_radii(size_t cells, float *x)
{
    for (size_t c = 0; c < cells; c++)
        x[c] += radius[c];
}

PASS subtract_radii(size_t cells, float *x)
{
    for (size_t c = 0; c < cells; c++)
        x[c] -= radius[c];
}

/* Methods 3, 4 and 7. All passes to nearest come first, in the mode of the call, then
   those up and those down. Method 3 has one centre for both bounds. */
void plain_centred(int method, size_t m, size_t k, size_t n, struct floats *f)
{
    plain_midpoints(m * k, f->al, f->au, f->ma);
    plain_midpoints(k * n, f->bl, f->bu, f->mb);
    if (method == 3)
        centres(method, m, k, n, f, f->lo);
    fesetround(FE_UPWARD);
    plain_distances(m * k, f->al, f->au, f->ma, f->ra);
    plain_distances(k * n, f->bl, f->bu, f->mb, f->rb);
    if (method == 7) {
        plain_parts(m * k, f->ma, f->ra, pa);
        plain_parts(k * n, f->mb, f->rb, pb);
    }
    radii(method, m, k, n, f);
    if (method == 3)
        memcpy(f->up, f->lo, m * n * sizeof f->up[0]);
    else
        centres(method, m, k, n, f, f->up);
    add_radii(m * n, f->up);
    fesetround(FE_DOWNWARD);
    if (method != 3)
        centres(method, m, k, n, f, f->lo);
    subtract_radii(m * n, f->lo);
}
