/* Test driver of products, not proved: cells of which a few are so large that a step of an
   entry overflows, or almost does. */
#include "product_plant.h"

#include "draw.h"
#include "numbers.h"

#define HALF 0x3F000000u
#define LARGE 0x71800000u           /* 2^100 */
#define LARGEST_POWER 0x7F000000u   /* 2^127 */

void fill_matrix(struct call *call, const struct matrix *x)
{
    for (size_t c = 0; c < cells_of(call, x->lowers); c++)
        draw_cell(x->kind, cell(call, x->lowers, c), cell(call, x->uppers, c));
}

static void put(struct call *call, enum slice lowers, enum slice uppers, size_t at, uint32_t lower, uint32_t upper)
{
    *cell(call, lowers, at) = lower;
    *cell(call, uppers, at) = upper;
}

/* Makes all cells of a matrix this point. */
static void put_points(struct call *call, enum slice lowers, enum slice uppers, uint32_t point)
{
    for (size_t at = 0; at < cells_of(call, lowers); at++)
        put(call, lowers, uppers, at, point, point);
}

/* The places of a cell of A and of a cell of B that some entry uses both. */
static void draw_pair_of_cells(const struct call *call, size_t *a, size_t *b)
{
    size_t i = (size_t)from_to(0, (int)call->a_rows - 1);
    size_t l = (size_t)from_to(0, (int)call->a_columns - 1);
    size_t j = (size_t)from_to(0, (int)call->b_columns - 1);
    *a = i * call->a_columns + l;
    *b = l * call->b_columns + j;
}

void plant_overflow(struct call *call)
{
    size_t a, b;
    struct matrix left = {AL, AU, {115, 128}}, right = {BL, BU, {115, 128}};
    draw_pair_of_cells(call, &a, &b);
    fill_matrix(call, &left);
    fill_matrix(call, &right);
    put(call, AL, AU, a, LARGE, LARGE);
    put(call, BL, BU, b, LARGE, LARGE);
}

void plant_wide_cell(struct call *call)
{
    const uint32_t least = 0x7E800000;      /* 2^126 */
    bool of_a = one_in(2), negative = one_in(2);
    struct matrix x = {of_a ? AL : BL, of_a ? AU : BU, {115, 128}};
    size_t c = (size_t)from_to(0, (int)cells_of(call, x.lowers) - 1);
    fill_matrix(call, &x);
    put(call, x.lowers, x.uppers, c, negative ? SIGN | MAX : least, negative ? SIGN | least : MAX);
    put_points(call, of_a ? BL : AL, of_a ? BU : AU, HALF);
}

void plant_largest(struct call *call)
{
    size_t a, b;
    bool about_zero = one_in(3);
    uint32_t steps = (uint32_t)from_to(0, about_zero ? 1 : 4 * ((int)call->a_columns + 1));
    uint32_t upper = about_zero ? MAX - steps : draw_sign(MAX - steps);
    draw_pair_of_cells(call, &a, &b);
    put_points(call, AL, AU, 0);
    put_points(call, BL, BU, 0);
    put(call, AL, AU, a, about_zero ? SIGN | upper : upper, upper);
    put(call, BL, BU, b, ONE, ONE);
}

void plant_opposed(struct call *call)
{
    size_t k = call->a_columns, n = call->b_columns, l = (size_t)from_to(0, (int)k - 1), other = (l + 1) % k;
    size_t i = (size_t)from_to(0, (int)call->a_rows - 1), j = (size_t)from_to(0, (int)n - 1);
    uint32_t first = LARGEST_POWER, second = SIGN | (LARGEST_POWER - (uint32_t)from_to(0, 6));
    put_points(call, AL, AU, 0);
    put_points(call, BL, BU, 0);
    put(call, AL, AU, i * k + other, second, second);
    put(call, AL, AU, i * k + l, first, first);
    put(call, BL, BU, other * n + j, ONE, ONE);
    put(call, BL, BU, l * n + j, ONE, ONE);
}
