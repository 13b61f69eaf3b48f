/* Test driver of products, not proved: random calls. Most are accepted or overflow; the
   others have one or several faults, so that the order of the checks is tested too. */
#include "product_draw.h"

#include "draw.h"
#include "product_plant.h"

static void draw_sizes(size_t *m, size_t *k, size_t *n)
{
    int least = one_in(150) ? COUPLING_SIZE_MAX : 1;
    int most = least == COUPLING_SIZE_MAX || one_in(20) ? COUPLING_SIZE_MAX : 6;
    *m = (size_t)from_to(least, most);
    *k = (size_t)from_to(least, most);
    *n = (size_t)from_to(least, most);
}

static uint32_t draw_method(void)
{
    static const uint32_t known[] = {1, 3, 4, 5, 7}, unknown[] = {0, 2, 6, 8, 9, 257, 261, 0x10001, UINT32_MAX};
    return one_in(40) ? unknown[from_to(0, 8)] : known[from_to(0, 4)];
}

/* Makes one to three cells of a matrix faulty. */
static void put_faults(struct call *call, const struct matrix *x)
{
    for (int count = from_to(1, 3); count > 0; count--) {
        size_t c = (size_t)from_to(0, (int)cells_of(call, x->lowers) - 1);
        uint32_t *lower = cell(call, x->lowers, c), *upper = cell(call, x->uppers, c);
        if (one_in(2))
            draw_infinite(x->kind, lower, upper);
        else
            draw_crossed(x->kind, lower, upper);
    }
}

/* Makes one slice too short: by one, to half of its cells, or empty. */
static void shorten(struct call *call)
{
    int s = from_to(0, SLICES - 1), by = from_to(0, 2);
    size_t cells = cells_of(call, (enum slice)s);
    call->lengths[s] = by == 0 ? cells - 1 : by == 1 ? cells / 2 : 0;
}

/* Sets one of the four sizes to 0, to a size above 32, to a huge one, or to any in range.
   Sometimes the size opposite to it (both inner or both outer sizes) gets the same. */
static void spoil_size(struct call *call)
{
    static const size_t wrong[] = {0, 33, 34, 64, (size_t)1 << 32, ((size_t)1 << 32) + 1, (size_t)1 << 63, SIZE_MAX};
    size_t *const sizes[] = {&call->a_rows, &call->a_columns, &call->b_rows, &call->b_columns};
    size_t size = one_in(3) ? (size_t)from_to(1, COUPLING_SIZE_MAX) : wrong[from_to(0, 7)];
    int which = from_to(0, 3);
    *sizes[which] = size;
    if (one_in(4))
        *sizes[3 - which] = size;
}

static void draw_cells(struct call *call)
{
    struct matrix a = {AL, AU, {0, 0}}, b = {BL, BU, {0, 0}};
    draw_kinds(&a.kind, &b.kind);
    if (one_in(8))
        plant_overflow(call);
    else if (one_in(10))
        plant_wide_cell(call);
    else if (one_in(20))
        plant_largest(call);
    else if (one_in(40))
        plant_opposed(call);
    else {
        fill_matrix(call, &a);
        fill_matrix(call, &b);
    }
    if (one_in(7))
        put_faults(call, &a);
    if (one_in(7))
        put_faults(call, &b);
}

void draw_call(struct call *call)
{
    size_t m, k, n;
    uint32_t method = draw_method();
    draw_sizes(&m, &k, &n);
    prepare(call, method, m, k, n);
    draw_cells(call);
    for (int s = 0; s < SLICES; s++)
        if (one_in(2))
            call->lengths[s] += (size_t)from_to(1, 9);
    if (one_in(12))
        shorten(call);
    if (one_in(30))
        shorten(call);
    if (one_in(20))
        spoil_size(call);
}
