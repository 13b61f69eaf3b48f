/* The classical method in plain C over 64-bit integers, not proved. In each step the
   four exact corner products are computed once, and each is rounded down and up;
   integer_product.c computes four for each direction, eight in all. */
#include "integer_product.h"

#include "integer_both.h"
#include "plain_order.h"

static inline struct both step(struct both sums, struct number al, struct number au, struct number bl, struct number bu)
{
    struct both p = rounded_both(product(al, bl)), q = rounded_both(product(al, bu));
    struct both r = rounded_both(product(au, bl)), s = rounded_both(product(au, bu));
    return (struct both){add_down(sums.down, least(least(p.down, q.down), least(r.down, s.down))),
                         add_up(sums.up, greatest(greatest(p.up, q.up), greatest(r.up, s.up)))};
}

bool integer_classical(size_t m, size_t k, size_t n, struct patterns *p)
{
    bool finite = true;
    for (size_t i = 0; i < m; i++)
        for (size_t j = 0; j < n; j++) {
            struct both sums = {0, 0};
            for (size_t l = 0; l < k; l++) {
                size_t a = i * k + l, b = l * n + j;
                sums = step(sums, decode(p->al[a]), decode(p->au[a]), decode(p->bl[b]), decode(p->bu[b]));
            }
            p->lo[i * n + j] = sums.down;
            p->up[i * n + j] = sums.up;
            finite &= is_finite(sums.down) && is_finite(sums.up);
        }
    return finite;
}
