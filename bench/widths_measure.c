/* Benchmarks, not proved: measures the widths of the ranges that each method returns,
   and of cells that are converted to midpoint and radius and back. */
#include "widths.h"

#include "bits.h"
#include "coupling.h"

static bool exact = true;

/* The upper less the lower bound. The difference is exact where both tests hold, since
   the test that begins with the bound of larger magnitude has no rounding error. */
static double width(uint32_t lower, uint32_t upper)
{
    double lo = value_of(lower), up = value_of(upper), w = up - lo;
    exact &= up - w == lo && lo + w == up;
    return w;
}

static void draw_product(const struct kind *kind, size_t k, struct matrices *x)
{
    x->m = x->n = ORDER;
    x->k = k;
    for (size_t c = 0; c < ORDER * k; c++) {
        struct cell a = kind->draw();
        struct cell b = kind->draw();
        x->al[c] = a.lower;
        x->au[c] = a.upper;
        x->bl[c] = b.lower;
        x->bu[c] = b.upper;
    }
}

/* Adds one entry, with its width by each method. */
static void add_entry(const double *widths, struct tally *tallies)
{
    for (int method = 0; method < METHODS; method++) {
        struct tally *t = &tallies[method];
        t->sum += widths[method];
        for (int other = 0; other < METHODS; other++) {
            t->narrower[other] += widths[method] < widths[other];
            t->equal[other] += widths[method] == widths[other];
            t->wider[other] += widths[method] > widths[other];
        }
    }
}

static bool add_product(const struct matrices *x, struct tally *tallies)
{
    static uint32_t lower[CELLS], upper[CELLS];
    static double widths[ORDER * ORDER][METHODS];
    peer_product.load(x);
    for (int method = 0; method < METHODS; method++) {
        if (!peer_product.run(methods[method]))
            return false;
        peer_product.result(lower, upper);
        for (size_t c = 0; c < ORDER * ORDER; c++)
            widths[c][method] = width(lower[c], upper[c]);
    }
    for (size_t c = 0; c < ORDER * ORDER; c++)
        add_entry(widths[c], tallies);
    return true;
}

bool measure_products(size_t k, struct tally tallies[KINDS][METHODS])
{
    static struct matrices x;
    for (int kind = 0; kind < KINDS; kind++)
        for (int product = 0; product < PRODUCTS; product++) {
            draw_product(&kinds[kind], k, &x);
            if (!add_product(&x, tallies[kind]))
                return false;
        }
    return exact;
}

static bool add_cell(struct cell cell, struct trips *trips)
{
    uint32_t mid, rad, lower, upper;
    if (coupling_to_midrad(cell.lower, cell.upper, &mid, &rad) != 0 || coupling_to_bounds(mid, rad, &lower, &upper) != 0)
        return false;
    double before = width(cell.lower, cell.upper);
    trips->width += before;
    trips->radius += value_of(rad);
    trips->growth += width(lower, upper) - before;
    trips->unchanged += lower == cell.lower && upper == cell.upper;
    return true;
}

bool measure_conversions(struct trips trips[KINDS])
{
    for (int kind = 0; kind < KINDS; kind++)
        for (int cell = 0; cell < CONVERSIONS; cell++)
            if (!add_cell(kinds[kind].draw(), &trips[kind]))
                return false;
    return exact;
}
