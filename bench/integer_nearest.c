/* Method 5 in plain C over 64-bit integers, not proved. Each product to nearest is
   computed once, for C and, without its sign, for G; integer_product.c computes it
   twice. */
#include "integer_product.h"

#include "integer_cells.h"

/* For each cell of A and of B: |m| + r, and the part p. */
static uint32_t outer_a[CELLS], part_a[CELLS], outer_b[CELLS], part_b[CELLS];

/* C and G of an entry. */
struct sums {
    uint32_t centre, size;
};

static void derive(size_t count, const uint32_t *m, const uint32_t *r, uint32_t *outer, uint32_t *p)
{
    for (size_t c = 0; c < count; c++) {
        outer[c] = add_up(m[c] & ~SIGN, r[c]);
        p[c] = part(m[c], r[c]);
    }
}

static inline struct sums dot_both(size_t k, size_t n, const uint32_t *x, const uint32_t *y, struct sums s)
{
    for (size_t l = 0; l < k; l++) {
        uint32_t product = mul_near(x[l], y[l * n]);
        s.centre = add_near(s.centre, product);
        s.size = add_near(s.size, product & ~SIGN);
    }
    return s;
}

static inline uint32_t dot_up(size_t k, size_t n, const uint32_t *x, const uint32_t *y)
{
    uint32_t s = 0;
    for (size_t l = 0; l < k; l++)
        s = add_up(s, mul_up(x[l], y[l * n]));
    return s;
}

/* A refused step gives a pattern that is not finite, and so do all steps that use it. */
static void entry(size_t k, size_t n, size_t row, size_t j, const struct patterns *p, uint32_t *lo, uint32_t *up)
{
    struct sums s = dot_both(k, n, p->ma + row, p->mb + j, (struct sums){0, 0});
    s = dot_both(k, n, part_a + row, part_b + j, s);
    uint32_t e = error(k, s.size);
    uint32_t radius = sub_up(dot_up(k, n, outer_a + row, outer_b + j), s.size);
    radius = add_up(radius, add_up(e, e));
    *lo = sub_down(s.centre, radius);
    *up = add_up(s.centre, radius);
}

bool integer_nearest(size_t m, size_t k, size_t n, struct patterns *p)
{
    convert(m * k, p->al, p->au, p->ma, p->ra);
    convert(k * n, p->bl, p->bu, p->mb, p->rb);
    derive(m * k, p->ma, p->ra, outer_a, part_a);
    derive(k * n, p->mb, p->rb, outer_b, part_b);
    bool finite = true;
    for (size_t i = 0; i < m; i++)
        for (size_t j = 0; j < n; j++) {
            uint32_t *lo = &p->lo[i * n + j], *up = &p->up[i * n + j];
            entry(k, n, i * k, j, p, lo, up);
            finite &= is_finite(*lo) && is_finite(*up);
        }
    return finite;
}
