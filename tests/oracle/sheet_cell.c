/* Independent implementation, not proved: one cell of a coupling sheet, its wear amount and
   its bounds. */
#include "parts.h"
#include "records.h"

/* In a class sheet byte 12 is a class and the rest of the wear is zero; `amounts` has the
   amount of each class. Returns 0, or 6 or 10. */
static uint32_t amount_by_class(const uint32_t *amounts, const uint8_t *wear, uint32_t *amount)
{
    if (!all_zero(wear + 1, 3))
        return 6;
    if (wear[0] >= CLASSES)
        return 10;
    *amount = amounts[wear[0]];
    return 0;
}

/* In an amount sheet the wear is the amount. Returns 0, or 14 where it is a number below
   zero, which minus zero is not; an infinity or a NaN is no number. */
static uint32_t amount_in_cell(const uint8_t *wear, uint32_t *amount)
{
    *amount = get_32(wear);
    return is_finite(*amount) && value_of(*amount) < 0 ? 14 : 0;
}

uint32_t widen_cell(uint32_t amount, uint32_t lower, uint32_t upper, uint32_t *lo, uint32_t *hi)
{
    uint32_t number = is_finite(amount) ? check_bounds(lower, upper) : 3;
    if (number == 0)
        number = oracle_operate(SUB, DOWN, lower, amount, lo);
    if (number == 0)
        number = oracle_operate(ADD, UP, upper, amount, hi);
    return number;
}

uint32_t read_cell(uint32_t kind, const uint32_t *amounts, const uint8_t *record, uint32_t *lo, uint32_t *hi)
{
    uint32_t lower = get_32(record + 4), upper = get_32(record + 8), amount = 0;
    const uint8_t *wear = record + WEAR_BYTE;
    uint32_t number = kind == AMOUNT_SHEET ? amount_in_cell(wear, &amount) : amount_by_class(amounts, wear, &amount);
    return number != 0 ? number : widen_cell(amount, lower, upper, lo, hi);
}
