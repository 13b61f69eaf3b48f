/* Benchmarks, not proved: the products in plain C on the machine's floats. Methods 3,
   4 and 7 are in plain_centred.c, method 5 in plain_nearest.c, method 1 in
   plain_classical.c. */
#include "plain_product.h"

#include <fenv.h>
#include <math.h>

static bool all_finite(size_t cells, const float *x)
{
    for (size_t c = 0; c < cells; c++)
        if (!isfinite(x[c]))
            return false;
    return true;
}

/* A step that overflows makes its entry infinite or NaN, and no later step makes it
   finite again; so only the results are tested. Rounding up never gives minus
   infinity, and rounding down never plus infinity. */
bool plain_product(int method, size_t m, size_t k, size_t n, struct floats *f)
{
    if (method == 1) {
        fesetround(FE_UPWARD);
        plain_uppers(m, k, n, f);
        fesetround(FE_DOWNWARD);
        plain_lowers(m, k, n, f);
    } else if (method == 5) {
        plain_nearest(m, k, n, f);
    } else {
        plain_centred(method, m, k, n, f);
    }
    fesetround(FE_TONEAREST);
    return all_finite(m * n, f->lo) && all_finite(m * n, f->up);
}
