/* Independent implementation, not proved: self-test of the rule by which bounds become
   midpoint and radius, on all bounds of a small format, where all pairs can be tried: no
   pair <m, r> of numbers that encloses [a, b] has a smaller radius. Nothing is shared with
   the implementation: values are whole numbers of units, roundings are found by search.

   A number has four binary digits, or fewer if it is below 8 units; the largest is 240
   units. A rank counts the numbers in rising order, zero has 0. The rank of a positive
   number is its pattern: exponent field and three bits of fraction. */
#include <stdlib.h>

#include "check.h"

#define LEADING 8       /* the leading one of a number that is not subnormal */
#define FIELDS 6        /* exponent fields; 0 is for subnormal numbers */
#define LAST (FIELDS * LEADING - 1)

static int value_at(int rank)
{
    int field = abs(rank) / LEADING, fraction = abs(rank) % LEADING;
    int units = field == 0 ? fraction : (LEADING + fraction) << (field - 1);
    return rank < 0 ? -units : units;
}

/* The rank of the number nearest to halves/2, of two such that with an even fraction. */
static int nearest(int halves)
{
    int best = -LAST;
    for (int rank = -LAST; rank <= LAST; rank++) {
        int distance = abs(2 * value_at(rank) - halves), least = abs(2 * value_at(best) - halves);
        if (distance < least || (distance == least && rank % 2 == 0))
            best = rank;
    }
    return best;
}

/* The rank of the least number not below halves/2; above LAST where there is none. */
static int rounded_up(int halves)
{
    int rank = -LAST;
    while (rank <= LAST && 2 * value_at(rank) < halves)
        rank++;
    return rank;
}

/* Arguments are ranks from here on. */
static bool encloses(int m, int r, int a, int b)
{
    return value_at(m) - value_at(r) <= value_at(a) && value_at(b) <= value_at(m) + value_at(r);
}

/* The smallest radius of all pairs that enclose, by trial; one below zero never does. */
static int smallest_radius(int a, int b)
{
    for (int r = 0; r <= LAST; r++)
        for (int m = -LAST; m <= LAST; m++)
            if (encloses(m, r, a, b))
                return r;
    return LAST + 1;
}

/* The larger of the two distances of m, rounded up. */
static int radius(int m, int a, int b)
{
    int to_a = value_at(m) - value_at(a), to_b = value_at(b) - value_at(m);
    return rounded_up(2 * (to_a > to_b ? to_a : to_b));
}

/* The rule gives numbers, encloses and has the smallest radius. By another rule, which
   rounds the midpoint up and takes its distance from the lower bound alone, the radius is
   sometimes larger: so the test tells the two apart. */
void check_small_format(void)
{
    int bounds = 0, refused = 0, outside = 0, not_smallest = 0, larger = 0;
    for (int a = -LAST; a <= LAST; a++)
        for (int b = a; b <= LAST; b++) {
            int sum = value_at(a) + value_at(b), m = nearest(sum), r = radius(m, a, b);
            int m_up = rounded_up(sum), one_sided = rounded_up(2 * (value_at(m_up) - value_at(a)));
            bounds++;
            refused += m < a || m > b || r > LAST;
            outside += !encloses(m, r, a, b);
            not_smallest += r != smallest_radius(a, b);
            larger += one_sided > r;
        }
    CHECK(value_at(LAST) == 240 && bounds == (2 * LAST + 1) * (LAST + 1));
    CHECK(refused == 0 && outside == 0 && not_smallest == 0);
    CHECK(larger > 0);
}
