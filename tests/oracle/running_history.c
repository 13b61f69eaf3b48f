/* Independent implementation, not proved: the running entry with its history. The value is
   never read: it is what follows from the list of all pairs that were taken. */
#include <string.h>

#include "parts.h"

uint32_t oracle_gauge(const uint32_t *amounts, struct gauged cell, uint32_t *lo, uint32_t *hi)
{
    return cell.wear_class >= CLASSES ? 10 : widen_cell(amounts[cell.wear_class], cell.lower, cell.upper, lo, hi);
}

/* The classical entry over the first k pairs: a row of k cells times a column of k cells. */
static uint32_t entry_afresh(const struct running *running, size_t k, uint32_t *lo, uint32_t *hi)
{
    uint32_t work[4][MAX_SIZE];
    return oracle_product(1, 1, k, 1, running->a_lo, k, running->a_hi, k, running->b_lo, k, running->b_hi, k,
                          work[0], k, work[1], k, work[2], k, work[3], k, lo, 1, hi, 1).number;
}

/* Returns 0, or 1; or 10, 3, 4 or 5 of the first cell, then of the second; or 5 of the
   entry. The cells of a refused pair are behind those that count. */
static uint32_t take_pair(struct running *running, struct gauged a, struct gauged b)
{
    uint32_t number, lo = 0, hi = 0;
    size_t k = running->pairs;
    if (k >= MAX_SIZE)
        return 1;
    number = oracle_gauge(running->amounts, a, &running->a_lo[k], &running->a_hi[k]);
    if (number == 0)
        number = oracle_gauge(running->amounts, b, &running->b_lo[k], &running->b_hi[k]);
    if (number == 0)
        number = entry_afresh(running, k + 1, &lo, &hi);
    if (number != 0)
        return number;
    running->pairs = k + 1;
    running->lo = lo;
    running->hi = hi;
    return 0;
}

/* Writes the value after a call with this number; returns the answer of the call. */
static uint32_t shown(const struct running *running, uint32_t number, uint32_t *value)
{
    value[0] = running->lo;
    value[1] = running->hi;
    value[2] = (uint32_t)running->pairs;
    memcpy(value + 3, running->amounts, sizeof running->amounts);
    return 1000000 * number;
}

uint32_t oracle_running_start(struct running *running, uint32_t *value, size_t len)
{
    if (len < RUNNING_WORDS)
        return 2000000;
    memset(running, 0, sizeof *running);
    memcpy(running->amounts, fixed_amounts, sizeof running->amounts);
    return shown(running, 0, value);
}

uint32_t oracle_running_take(struct running *running, uint32_t *value, size_t len,
                             struct gauged a, struct gauged b)
{
    if (len < RUNNING_WORDS)
        return 2000000;
    uint32_t number = take_pair(running, a, b);
    return shown(running, number, value);
}

uint32_t oracle_running_amounts(struct running *running, uint32_t *value, size_t len,
                                const uint8_t *load, size_t load_len)
{
    if (len < RUNNING_WORDS)
        return 2000000;
    uint32_t number = load_amounts(load, load_len, running->amounts);
    return shown(running, number, value);
}
