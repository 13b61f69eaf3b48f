/* Test driver of running entries, not proved: random cells as they are gauged. */
#include "gauged_draw.h"

#include "draw.h"
#include "numbers.h"

void draw_gauged(struct kind kind, bool worn, struct gauged *cell)
{
    uint32_t wear_class = any_bits() % 8;
    draw_cell(kind, &cell->lower, &cell->upper);
    cell->wear_class = worn ? wear_class : 0;
}

/* 8, any byte above it, a class with one bit more, or numbers up to the largest. */
static uint32_t draw_wrong_class(void)
{
    uint32_t any = any_bits(), wear_class = any_bits() % 8;
    switch (from_to(0, 5)) {
    case 0:  return 8;
    case 1:  return 8 + any % 248;
    case 2:  return any | 8;
    case 3:  return UINT32_MAX - wear_class;
    default: return 1u << from_to(3, 31) | wear_class;
    }
}

static void spoil_once(struct kind kind, const uint32_t *amounts, struct gauged *cell)
{
    uint32_t any = any_bits(), *bound = one_in(2) ? &cell->lower : &cell->upper;
    switch (from_to(0, 4)) {
    case 0:
        cell->wear_class = draw_wrong_class();
        break;
    case 1:
        draw_infinite(kind, &cell->lower, &cell->upper);
        break;
    case 2:
        draw_crossed(kind, &cell->lower, &cell->upper);
        break;
    case 3:
        if (cell->wear_class < 8)
            draw_limit(amounts[cell->wear_class], &cell->lower, &cell->upper);
        break;
    default:
        cell->wear_class = 1 + any % 7;
        *bound = draw_sign(MAX);
        put_in_order(&cell->lower, &cell->upper);
    }
}

void spoil_gauged(struct kind kind, const uint32_t *amounts, struct gauged *cell)
{
    for (int faults = one_in(3) ? 2 : 1; faults > 0; faults--)
        spoil_once(kind, amounts, cell);
}

/* A few steps from a number, toward zero or away from it. */
static uint32_t draw_close_to(uint32_t number)
{
    int64_t stepped = (int64_t)(number & ~SIGN) + from_to(-2, 2);
    return stepped < 0 || stepped > MAX ? number : (number & SIGN) | (uint32_t)stepped;
}

static void exchange(struct gauged *a, struct gauged *b)
{
    struct gauged first = *a;
    *a = *b;
    *b = first;
}

void draw_pair_to_limit(const uint32_t *value, struct gauged *a, struct gauged *b)
{
    static const uint32_t targets[] = {MAX, SIGN | MAX, 0};
    uint32_t number = targets[from_to(0, 2)], sum = value[from_to(0, 1)], wear_class = any_bits() % 8;
    uint32_t sign = draw_sign(0);
    oracle_operate(SUB, NEAR, number, sum, &number);    /* the target itself, where this is too large */
    number = draw_close_to(number) ^ sign;
    *a = (struct gauged){number, number, one_in(4) ? wear_class : 0};
    *b = (struct gauged){sign | ONE, sign | ONE, 0};
    if (one_in(2))
        *(number & SIGN ? &a->upper : &a->lower) = 0;
    if (one_in(2))
        exchange(a, b);
}
