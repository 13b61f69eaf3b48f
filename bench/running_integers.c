/* Benchmarks, not proved: a pair taken in plain C over 64-bit integers. It answers as the
   library does on all words: the same checks in the same order, the same patterns. */
#include "integer_both.h"
#include "plain_order.h"
#include "running.h"

#define LOWER COUPLING_RUNNING_LOWER
#define UPPER COUPLING_RUNNING_UPPER
#define COUNT COUPLING_RUNNING_PAIRS
#define AMOUNTS COUPLING_RUNNING_AMOUNTS

struct cell {
    uint32_t lower, upper;
};

/* 0, 3 or 4. */
static inline uint32_t fault(struct cell x)
{
    if (!is_finite(x.lower) || !is_finite(x.upper))
        return COUPLING_NOT_FINITE;
    return order(x.lower) > order(x.upper) ? COUPLING_CROSSED : 0;
}

/* 0, 10, 3, 4 or 5; on 0, *x is widened. */
static inline uint32_t widen(const uint32_t *amounts, uint32_t wear_class, struct cell *x)
{
    if (wear_class > 7)
        return COUPLING_CLASS;
    uint32_t amount = amounts[wear_class], number = is_finite(amount) ? fault(*x) : COUPLING_NOT_FINITE;
    if (number != 0)
        return number;
    x->lower = sub_down(x->lower, amount);
    x->upper = add_up(x->upper, amount);
    return is_finite(x->lower) && is_finite(x->upper) ? 0 : COUPLING_OVERFLOW;
}

/* What a value that was carried from its start always passes: an amount below zero may
   have crossed a cell, and a sum may be no number. */
static inline uint32_t foreign_fault(const uint32_t *value, struct cell a, struct cell b)
{
    uint32_t number = fault(a);
    if (number == 0)
        number = fault(b);
    return number == 0 && !(is_finite(value[LOWER]) && is_finite(value[UPPER])) ? COUPLING_NOT_FINITE : number;
}

/* The least of the corner products, rounded down, and the greatest, rounded up. */
typedef struct both corners(struct cell a, struct cell b);

/* Of products rounded down. One that is refused is the greatest pattern, and `least` would
   pass over it. Where one is, q or r is: the least product, if below zero, is q or r. */
static inline uint32_t least_corner(uint32_t p, uint32_t q, uint32_t r, uint32_t s)
{
    return is_finite(q) && is_finite(r) ? least(least(p, q), least(r, s)) : OVERFLOW;
}

static inline uint32_t greatest_corner(uint32_t p, uint32_t q, uint32_t r, uint32_t s)
{
    return greatest(greatest(p, q), greatest(r, s));
}

/* Each product is worked out twice, as in integer_product.c. */
static inline struct both corners_twice(struct cell a, struct cell b)
{
    uint32_t al = a.lower, au = a.upper, bl = b.lower, bu = b.upper;
    return (struct both){least_corner(mul_down(al, bl), mul_down(al, bu), mul_down(au, bl), mul_down(au, bu)),
                         greatest_corner(mul_up(al, bl), mul_up(al, bu), mul_up(au, bl), mul_up(au, bu))};
}

/* Each product is worked out once, as in integer_classical.c. */
static inline struct both corners_once(struct cell a, struct cell b)
{
    struct number al = decode(a.lower), au = decode(a.upper), bl = decode(b.lower), bu = decode(b.upper);
    struct both p = rounded_both(product(al, bl)), q = rounded_both(product(al, bu));
    struct both r = rounded_both(product(au, bl)), s = rounded_both(product(au, bu));
    return (struct both){least_corner(p.down, q.down, r.down, s.down), greatest_corner(p.up, q.up, r.up, s.up)};
}

/* A step of the classical method; returns 0 or 5. */
static inline uint32_t add_pair(uint32_t *value, struct both corner)
{
    uint32_t lower = add_down(value[LOWER], corner.down), upper = add_up(value[UPPER], corner.up);
    if (!is_finite(lower) || !is_finite(upper))
        return COUPLING_OVERFLOW;
    value[LOWER] = lower;
    value[UPPER] = upper;
    value[COUNT]++;
    return 0;
}

static inline uint32_t take(uint32_t *value, size_t value_len, struct cell a, uint32_t a_class, struct cell b, uint32_t b_class,
                            corners *of)
{
    if (value_len < COUPLING_RUNNING_WORDS)
        return refusal(COUPLING_SHORT);
    if (value[COUNT] >= COUPLING_PAIRS_MAX)
        return refusal(COUPLING_SIZE);
    uint32_t number = widen(value + AMOUNTS, a_class, &a);
    if (number == 0)
        number = widen(value + AMOUNTS, b_class, &b);
    if (number == 0)
        number = foreign_fault(value, a, b);
    if (number == 0)
        number = add_pair(value, of(a, b));
    return refusal(number);
}

uint32_t integer_take(uint32_t *value, size_t value_len, uint32_t al, uint32_t au, uint32_t a_class, uint32_t bl, uint32_t bu,
                      uint32_t b_class)
{
    return take(value, value_len, (struct cell){al, au}, a_class, (struct cell){bl, bu}, b_class, corners_twice);
}

uint32_t integer_take_once(uint32_t *value, size_t value_len, uint32_t al, uint32_t au, uint32_t a_class, uint32_t bl, uint32_t bu,
                           uint32_t b_class)
{
    return take(value, value_len, (struct cell){al, au}, a_class, (struct cell){bl, bu}, b_class, corners_once);
}
