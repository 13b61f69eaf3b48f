/* Benchmarks, not proved: the classical method on the machine's floats, in the
   rounding mode that is set. Called by plain_product.c. */
#include "plain_product.h"

static float least(float x, float y) { return x < y ? x : y; }
static float greatest(float x, float y) { return x > y ? x : y; }

void plain_lowers(size_t m, size_t k, size_t n, struct floats *f)
{
    for (size_t i = 0; i < m; i++)
        for (size_t j = 0; j < n; j++) {
            float sum = 0;
            for (size_t l = 0; l < k; l++) {
                size_t a = i * k + l, b = l * n + j;
                sum += least(least(f->al[a] * f->bl[b], f->al[a] * f->bu[b]),
                             least(f->au[a] * f->bl[b], f->au[a] * f->bu[b]));
            }
            f->lo[i * n + j] = sum;
        }
}

void plain_uppers(size_t m, size_t k, size_t n, struct floats *f)
{
    for (size_t i = 0; i < m; i++)
        for (size_t j = 0; j < n; j++) {
            float sum = 0;
            for (size_t l = 0; l < k; l++) {
                size_t a = i * k + l, b = l * n + j;
                sum += greatest(greatest(f->al[a] * f->bl[b], f->al[a] * f->bu[b]),
                                greatest(f->au[a] * f->bl[b], f->au[a] * f->bu[b]));
            }
            f->up[i * n + j] = sum;
        }
}
