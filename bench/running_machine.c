/* Benchmarks, not proved: a pair taken on the machine's floats, with the same checks as
   in running_integers.c. The passes of one rounding mode take their operands from memory and
   leave their results there, and so the compiler cannot move them over a call of
   fesetround. */
#include <fenv.h>
#include <math.h>

#include "bits.h"
#include "running.h"

/* The cells with their amounts, and as they are widened; and both sums. */
struct pair {
    float al, au, bl, bu, a_amount, b_amount;
    float wal, wau, wbl, wbu;
    float lower, upper;
};

static float least(float x, float y) { return x < y ? x : y; }
static float greatest(float x, float y) { return x > y ? x : y; }

/* Mode up: the cells widened, and the upper sum. A lower bound less its amount, rounded
   down, is the opposite of the amount less the bound, rounded up. */
static void widen_and_add(struct pair *p)
{
    p->wal = -(p->a_amount - p->al);
    p->wau = p->au + p->a_amount;
    p->wbl = -(p->b_amount - p->bl);
    p->wbu = p->bu + p->b_amount;
    p->upper += greatest(greatest(p->wal * p->wbl, p->wal * p->wbu), greatest(p->wau * p->wbl, p->wau * p->wbu));
}

/* Mode down: the lower sum. */
static void add_lower(struct pair *p)
{
    p->lower += least(least(p->wal * p->wbl, p->wal * p->wbu), least(p->wau * p->wbl, p->wau * p->wbu));
}

/* 0, 10, 3 or 4; *amount is given unless it is 10. */
static uint32_t fault(const uint32_t *amounts, uint32_t wear_class, float lower, float upper, float *amount)
{
    if (wear_class > 7)
        return COUPLING_CLASS;
    *amount = value_of(amounts[wear_class]);
    if (!isfinite(*amount) || !isfinite(lower) || !isfinite(upper))
        return COUPLING_NOT_FINITE;
    return lower > upper ? COUPLING_CROSSED : 0;
}

/* After both passes: 0, or the first of 5 of the first cell; the fault of the second; 5 of
   the second; 4, a cell was crossed by an amount below zero; 3, a sum was no number before;
   and 5 of the sums. A step that overflows makes its sum infinite. */
static uint32_t fault_after(const struct pair *p, uint32_t b_fault, bool sums_finite)
{
    if (!isfinite(p->wal) || !isfinite(p->wau))
        return COUPLING_OVERFLOW;
    if (b_fault != 0)
        return b_fault;
    if (!isfinite(p->wbl) || !isfinite(p->wbu))
        return COUPLING_OVERFLOW;
    if (p->wal > p->wau || p->wbl > p->wbu)
        return COUPLING_CROSSED;
    if (!sums_finite)
        return COUPLING_NOT_FINITE;
    return isfinite(p->lower) && isfinite(p->upper) ? 0 : COUPLING_OVERFLOW;
}

/* The fault of a pair that has one, or the sums with the pair added, in value. */
static uint32_t added(uint32_t *value, struct pair *p, uint32_t b_fault)
{
    bool sums_finite = isfinite(p->lower) && isfinite(p->upper);
    fesetround(FE_UPWARD);
    widen_and_add(p);
    fesetround(FE_DOWNWARD);
    add_lower(p);
    fesetround(FE_TONEAREST);
    uint32_t number = fault_after(p, b_fault, sums_finite);
    if (number != 0)
        return number;
    value[COUPLING_RUNNING_LOWER] = result_pattern(p->lower);
    value[COUPLING_RUNNING_UPPER] = result_pattern(p->upper);
    value[COUPLING_RUNNING_PAIRS]++;
    return 0;
}

uint32_t machine_take(uint32_t *value, size_t value_len, uint32_t al, uint32_t au, uint32_t a_class, uint32_t bl, uint32_t bu,
                      uint32_t b_class)
{
    static struct pair p; /* in memory, as the passes need it */
    const uint32_t *amounts = value + COUPLING_RUNNING_AMOUNTS;
    if (value_len < COUPLING_RUNNING_WORDS)
        return refusal(COUPLING_SHORT);
    if (value[COUPLING_RUNNING_PAIRS] >= COUPLING_PAIRS_MAX)
        return refusal(COUPLING_SIZE);
    p = (struct pair){.al = value_of(al), .au = value_of(au), .bl = value_of(bl), .bu = value_of(bu),
                      .lower = value_of(value[COUPLING_RUNNING_LOWER]), .upper = value_of(value[COUPLING_RUNNING_UPPER])};
    uint32_t number = fault(amounts, a_class, p.al, p.au, &p.a_amount);
    if (number == 0)
        number = added(value, &p, fault(amounts, b_class, p.bl, p.bu, &p.b_amount));
    return refusal(number);
}
