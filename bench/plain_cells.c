/* Benchmarks, not proved: what methods 3, 4, 5 and 7 derive from single cells, on the
   machine's floats in the mode that is set. Called by plain_centred.c and
   plain_nearest.c, as passes of one mode each: a pass takes its operands from memory
   and leaves its results there, and so the compiler cannot move it over a call of
   fesetround. */
#include "plain_product.h"

#include <math.h>

static float least(float x, float y) { return x < y ? x : y; }
static float greatest(float x, float y) { return x > y ? x : y; }

/* The sum of two floats is exact in binary64, unless one is below 2^-28 of the other.
   Then the midpoint is so close to half of the other, a float, that it becomes this
   float, whether or not the sum was rounded first. */
void plain_midpoints(size_t cells, const float *lo, const float *up, float *m)
{
    for (size_t c = 0; c < cells; c++)
        m[c] = (float)(((double)lo[c] + (double)up[c]) * 0.5);
}

void plain_distances(size_t cells, const float *lo, const float *up, const float *m, float *r)
{
    for (size_t c = 0; c < cells; c++)
        r[c] = greatest(m[c] - lo[c], up[c] - m[c]);
}

void plain_parts(size_t cells, const float *m, const float *r, float *p)
{
    for (size_t c = 0; c < cells; c++)
        p[c] = copysignf(least(fabsf(m[c]), r[c]), m[c]);
}
