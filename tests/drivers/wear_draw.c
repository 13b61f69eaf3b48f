/* Test drivers, not proved: the random wear of a cell, in a class sheet or an amount sheet. */
#include "wear_draw.h"

#include "draw.h"
#include "numbers.h"
#include "records.h"

/* An amount that is not below zero. */
static uint32_t draw_amount(bool moderate)
{
    uint32_t fraction = draw_fraction(), any = any_bits();
    switch (from_to(0, moderate ? 4 : 7)) {
    case 0:  return 0;
    case 1:  return SIGN;                                           /* minus zero */
    case 2:  return fraction;                                       /* subnormal */
    case 3: case 4:
             return (uint32_t)from_to(100, 124) << 23 | fraction;   /* small, as the fixed amounts are */
    case 5:  return (uint32_t)from_to(0, 254) << 23 | fraction;
    case 6:  return (uint32_t)from_to(250, 254) << 23 | fraction;
    default: return MAX - any % 2;
    }
}

uint32_t draw_wear(uint32_t sheet_kind, bool moderate)
{
    return sheet_kind == CLASS_SHEET ? any_bits() % 8 : draw_amount(moderate);
}

uint32_t draw_below_zero(void)
{
    return SIGN | (1 + any_bits() % MAX);
}

uint32_t draw_wrong_wear(uint32_t sheet_kind)
{
    uint32_t any = any_bits();
    if (sheet_kind == CLASS_SHEET)
        return one_in(2) ? 8 : any & 0xFF;
    switch (from_to(0, 5)) {
    case 0:  return SIGN | draw_amount(false);
    case 1:  return draw_pattern();
    case 2: case 3: return draw_not_finite();
    default: return draw_below_zero();
    }
}
