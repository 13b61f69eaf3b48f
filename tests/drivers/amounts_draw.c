/* Test drivers, not proved: random loads: valid, with wrong amounts, of another length, or
   of random bytes. */
#include "amounts_draw.h"

#include "cells.h"
#include "draw.h"
#include "lent.h"
#include "numbers.h"
#include "records.h"

enum { AMOUNTS = 8, LENGTH = 32 };

/* Numbers of one kind, none below the one before it. Some are equal. Unless they have to be
   moderate, the last ones are now and then MAX. */
static void draw_ascending(uint32_t *amounts, bool moderate)
{
    static const struct kind kinds[] = {
        {110, 124},     /* small, as the fixed amounts are */
        {0, 1},         /* subnormal */
        {0, 254},       /* of every size */
        {230, 254},     /* large */
    };
    struct kind kind = kinds[from_to(0, moderate ? 1 : 3)];
    int first_largest = one_in(3) && !moderate ? from_to(1, AMOUNTS - 1) : AMOUNTS;
    for (int i = 0; i < AMOUNTS; i++) {
        uint32_t field = (uint32_t)from_to(kind.least, kind.greatest), next = field << 23 | draw_fraction();
        int at = i;
        if (i > 0 && one_in(5))
            next = amounts[any_bits() % (uint32_t)i];
        for (; at > 0 && amounts[at - 1] > next; at--)
            amounts[at] = amounts[at - 1];
        amounts[at] = next;
    }
    for (int i = first_largest; i < AMOUNTS; i++)
        amounts[i] = MAX;
}

/* Numbers that follow each other without a gap; the last may be MAX. */
static void draw_neighbours(uint32_t *amounts)
{
    uint32_t any = any_bits(), first = one_in(2) ? MAX - AMOUNTS + 1 : any % (MAX - AMOUNTS + 2);
    for (uint32_t i = 0; i < AMOUNTS; i++)
        amounts[i] = first + i;
}

static void put_fixed(uint32_t *amounts)
{
    for (uint32_t i = 0; i < AMOUNTS; i++)
        amounts[i] = fixed_amount(i);
}

/* Amounts without fault. The first is a zero, and some others may be; of either sign. */
static void draw_valid(uint32_t *amounts, bool moderate)
{
    int zeros = one_in(4) ? from_to(1, AMOUNTS) : 1;
    bool either_sign = one_in(2);
    int which = from_to(0, 7);
    if (which == 0)
        put_fixed(amounts);
    else if (which == 1 && !moderate)
        draw_neighbours(amounts);
    else
        draw_ascending(amounts, moderate);
    for (int i = 0; i < zeros; i++)
        amounts[i] = either_sign ? draw_sign(0) : 0;
}

/* The number below this one that is next to it. */
static uint32_t just_below(uint32_t p)
{
    return (p & ~SIGN) == 0 ? SIGN | 1 : p & SIGN ? p + 1 : p - 1;
}

static void exchange(uint32_t *amounts, int at)
{
    uint32_t first = amounts[at];
    amounts[at] = amounts[at + 1];
    amounts[at + 1] = first;
}

/* Makes one amount wrong, or nearly wrong. */
static void damage_amount(uint32_t *amounts)
{
    int any_place = from_to(0, AMOUNTS - 1), later = from_to(1, AMOUNTS - 1);
    uint32_t before = amounts[later - 1], any = any_bits();
    switch (from_to(0, 10)) {
    case 0: case 1: amounts[any_place] = draw_not_finite(); break;
    case 2: amounts[any_place] = INFINITE; break;
    case 3: amounts[any_place] = draw_pattern(); break;
    case 4: case 5: amounts[later] = just_below(before); break;
    case 6: amounts[later] = before < 2 ? before : any % before; break;
    case 7: amounts[later] = draw_sign(0); break;
    case 8: amounts[later] |= SIGN; break;
    case 9: exchange(amounts, later - 1); break;
    default: amounts[0] = one_in(2) ? draw_sign(1) : just_below(amounts[1]); break;
    }
}

static size_t draw_other_length(void)
{
    switch (from_to(0, 3)) {
    case 0:  return LENGTH - 1;
    case 1:  return LENGTH + 1;
    default: return (size_t)from_to(0, LOAD_BYTES);
    }
}

static void put_load(uint8_t *load, const uint32_t *amounts)
{
    for (int i = 0; i < AMOUNTS; i++)
        put_number(load + 4 * i, amounts[i], 4);
}

size_t draw_moderate_load(uint8_t *load)
{
    uint32_t amounts[AMOUNTS];
    draw_valid(amounts, true);
    put_load(load, amounts);
    return LENGTH;
}

size_t draw_load(uint8_t *load)
{
    uint32_t amounts[AMOUNTS];
    int faults = one_in(8) ? 2 : one_in(3) ? 1 : 0;
    draw_valid(amounts, false);
    for (int i = 0; i < faults; i++)
        damage_amount(amounts);
    put_load(load, amounts);
    if (one_in(30))
        for (int i = one_in(2) ? 0 : 4; i < LENGTH; i++)
            load[i] = (uint8_t)any_bits();
    return one_in(10) ? draw_other_length() : LENGTH;
}
