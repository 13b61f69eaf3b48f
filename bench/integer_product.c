/* The products in plain C over 64-bit integers, not proved: by methods 3, 4, 5 and 7 a
   dot product for each sum. Values that depend on one cell are computed once for each
   cell, before the entries. */
#include "integer_product.h"

#include "integer_cells.h"

#define TINY 0x01000000u /* 2^-125 */

/* For each cell of A: |m|, the part p, and -|p|. For each cell of B: method 3's r', or
   r by the other methods; |m| + r; the part p; and |p|. */
static uint32_t abs_a[CELLS], part_a[CELLS], minus_a[CELLS];
static uint32_t inner_b[CELLS], outer_b[CELLS], part_b[CELLS], abs_part_b[CELLS];

/* Also for method 5: |m| + r and |p| of A, and |m| of B. */
static uint32_t outer_a[CELLS], abs_part_a[CELLS], abs_b[CELLS];

/* (k + 2) / 2^24 for method 3, as an exact sum of k + 2 terms 2^-24. */
static uint32_t raised(size_t k)
{
    uint32_t total = 0;
    for (size_t i = 0; i < k + 2; i++)
        total = add_near(total, 0x33800000);
    return total;
}

static void derive(int method, size_t k, size_t a, size_t b, const struct patterns *p)
{
    uint32_t factor = method == 3 ? raised(k) : 0;
    for (size_t c = 0; c < a; c++) {
        abs_a[c] = p->ma[c] & ~SIGN;
        part_a[c] = part(p->ma[c], p->ra[c]);
        minus_a[c] = part_a[c] | SIGN;
    }
    for (size_t c = 0; c < b; c++) {
        uint32_t m = p->mb[c] & ~SIGN;
        inner_b[c] = method == 3 ? add_up(mul_up(factor, m), p->rb[c]) : p->rb[c];
        outer_b[c] = add_up(m, p->rb[c]);
        part_b[c] = part(p->mb[c], p->rb[c]);
        abs_part_b[c] = part_b[c] & ~SIGN;
    }
}

/* What method 5 needs beside derive, which comes first. */
static void derive_nearest(size_t a, size_t b, const struct patterns *p)
{
    for (size_t c = 0; c < a; c++) {
        outer_a[c] = add_up(abs_a[c], p->ra[c]);
        abs_part_a[c] = part_a[c] & ~SIGN;
    }
    for (size_t c = 0; c < b; c++)
        abs_b[c] = p->mb[c] & ~SIGN;
}

static uint32_t dot_up(size_t k, size_t n, const uint32_t *x, const uint32_t *y, uint32_t s)
{
    for (size_t l = 0; l < k; l++)
        s = add_up(s, mul_up(x[l], y[l * n]));
    return s;
}

static uint32_t dot_down(size_t k, size_t n, const uint32_t *x, const uint32_t *y, uint32_t s)
{
    for (size_t l = 0; l < k; l++)
        s = add_down(s, mul_down(x[l], y[l * n]));
    return s;
}

static uint32_t dot_near(size_t k, size_t n, const uint32_t *x, const uint32_t *y, uint32_t s)
{
    for (size_t l = 0; l < k; l++)
        s = add_near(s, mul_near(x[l], y[l * n]));
    return s;
}

static void classical(size_t k, size_t n, size_t row, size_t j, const struct patterns *p, uint32_t *lo, uint32_t *up)
{
    *lo = *up = 0;
    for (size_t l = 0; l < k; l++) {
        uint32_t al = p->al[row + l], au = p->au[row + l], bl = p->bl[l * n + j], bu = p->bu[l * n + j];
        *lo = add_down(*lo, least(least(mul_down(al, bl), mul_down(al, bu)),
                                        least(mul_down(au, bl), mul_down(au, bu))));
        *up = add_up(*up, greatest(greatest(mul_up(al, bl), mul_up(al, bu)),
                                         greatest(mul_up(au, bl), mul_up(au, bu))));
    }
}

static void centred(int method, size_t k, size_t n, size_t row, size_t j, const struct patterns *p, uint32_t *lo, uint32_t *up)
{
    uint32_t radius = dot_up(k, n, abs_a + row, inner_b + j, 0), low, high;
    if (method == 3)
        radius = add_up(radius, TINY);
    radius = dot_up(k, n, p->ra + row, outer_b + j, radius);
    if (method == 3) {
        low = high = dot_near(k, n, p->ma + row, p->mb + j, 0);
    } else {
        low = dot_down(k, n, p->ma + row, p->mb + j, 0);
        high = dot_up(k, n, p->ma + row, p->mb + j, 0);
    }
    if (method == 7) {
        radius = dot_up(k, n, minus_a + row, abs_part_b + j, radius);
        low = dot_down(k, n, part_a + row, part_b + j, low);
        high = dot_up(k, n, part_a + row, part_b + j, high);
    }
    *lo = sub_down(low, radius);
    *up = add_up(high, radius);
}

/* A refused step gives a pattern that is not finite, and so do all steps that use it. */
static void nearest(size_t k, size_t n, size_t row, size_t j, const struct patterns *p, uint32_t *lo, uint32_t *up)
{
    uint32_t centre = dot_near(k, n, p->ma + row, p->mb + j, 0);
    uint32_t size = dot_near(k, n, abs_a + row, abs_b + j, 0);
    centre = dot_near(k, n, part_a + row, part_b + j, centre);
    size = dot_near(k, n, abs_part_a + row, abs_part_b + j, size);
    uint32_t e = error(k, size);
    uint32_t radius = sub_up(dot_up(k, n, outer_a + row, outer_b + j, 0), size);
    radius = add_up(radius, add_up(e, e));
    *lo = sub_down(centre, radius);
    *up = add_up(centre, radius);
}

bool integer_product(int method, size_t m, size_t k, size_t n, struct patterns *p)
{
    if (method != 1) {
        convert(m * k, p->al, p->au, p->ma, p->ra);
        convert(k * n, p->bl, p->bu, p->mb, p->rb);
        derive(method, k, m * k, k * n, p);
    }
    if (method == 5)
        derive_nearest(m * k, k * n, p);
    bool finite = true;
    for (size_t i = 0; i < m; i++)
        for (size_t j = 0; j < n; j++) {
            uint32_t *lo = &p->lo[i * n + j], *up = &p->up[i * n + j];
            if (method == 1)
                classical(k, n, i * k, j, p, lo, up);
            else if (method == 5)
                nearest(k, n, i * k, j, p, lo, up);
            else
                centred(method, k, n, i * k, j, p, lo, up);
            finite &= is_finite(*lo) && is_finite(*up);
        }
    return finite;
}
