/* Benchmarks, not proved: what is measured of the widths of ranges and cells. */
#ifndef WIDTHS_H
#define WIDTHS_H

#include "kinds.h"
#include "measure.h"

#define ORDER 8 /* rows and columns of a product */
#define PRODUCTS 5000
#define ENTRIES (PRODUCTS * ORDER * ORDER)
#define CONVERSIONS 1000000

/* Of all entries by one method: the sum of their widths, and how many are narrower
   than by each method, as wide, and wider. */
struct tally {
    double sum;
    long narrower[METHODS], equal[METHODS], wider[METHODS];
};

/* Of all cells of one kind, converted to midpoint and radius and back: the sums of
   their widths, radii and growths, and how many came back as they were. */
struct trips {
    double width, radius, growth;
    long unchanged;
};

/* Multiplies products of ORDER by k by ORDER, of each kind by each method. Returns
   false, as the next one does, where a call is refused or a width is not exact in
   binary64. */
bool measure_products(size_t k, struct tally tallies[KINDS][METHODS]);

bool measure_conversions(struct trips trips[KINDS]);

#endif
