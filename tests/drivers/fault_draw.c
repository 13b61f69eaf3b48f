/* Test drivers, not proved: puts a fault or a large number into a valid sheet. */
#include "fault_draw.h"

#include "cells.h"
#include "draw.h"
#include "numbers.h"
#include "records.h"
#include "wear_draw.h"

uint32_t draw_fault_number(uint32_t sheet_kind)
{
    const uint32_t of_kind = sheet_kind == CLASS_SHEET ? 10 : 14, numbers[] = {1, 3, 4, 5, 6, 7, 8, of_kind, of_kind};
    return numbers[from_to(0, 8)];
}

/* The index in the first two bytes of a record. */
static uint32_t index_in(const uint8_t *record)
{
    return (uint32_t)record[0] | (uint32_t)record[1] << 8;
}

/* The record of one of the cells of the chain, each with the same probability. */
static uint8_t *draw_record(uint8_t *sheet)
{
    uint8_t *record = sheet;
    int met = 0;
    for (uint32_t index = index_in(sheet); index != 0; index = index_in(sheet + RECORD_BYTES * index))
        if (one_in(++met))
            record = sheet + RECORD_BYTES * index;
    return record;
}

static void put_bounds(uint8_t *record, uint32_t lower, uint32_t upper)
{
    put_number(record + 4, lower, 4);
    put_number(record + 8, upper, 4);
}

/* An index that is not below the record count, in the head or in the cell; or a row or
   column of the cell that is not below the size. */
static void put_outside(uint8_t *sheet, uint8_t *record)
{
    uint32_t records = index_in(sheet + 4), any = any_bits(), which = any_bits() % 2;
    int place = from_to(0, 2);
    if (place == 0)
        record[2 + which] = (uint8_t)(sheet[2 + which] + any % (256u - sheet[2 + which]));
    else
        put_number(place == 1 ? sheet : record, records + any % (0x10000 - records), 2);
}

/* A kind that there is not, or another byte of the head that must be zero; or, in a class
   sheet, such a byte of the cell. */
static void put_byte(uint8_t *sheet, uint8_t *record)
{
    bool in_cell = one_in(2) && sheet[KIND_BYTE] == CLASS_SHEET;
    int at = in_cell ? from_to(13, 15) : from_to(6, 15);
    bool is_kind = !in_cell && at == KIND_BYTE;
    (in_cell ? record : sheet)[at] = (uint8_t)from_to(is_kind ? 2 : 1, 255);
}

/* A wear that is refused with 3, 10 or 14; for 5, any class or amount above zero beside the
   largest number of either sign. */
static void put_wear(uint32_t sheet_kind, uint8_t *record, uint32_t number)
{
    uint8_t *wear = record + WEAR_BYTE;
    uint32_t any = any_bits(), which = any_bits() % 2;
    switch (number) {
    case 3:
        put_number(wear, draw_not_finite(), 4);
        break;
    case 5:
        put_number(record + 4 + 4 * which, which ? MAX : MAX | SIGN, 4);
        put_number(wear, 1 + any % (sheet_kind == CLASS_SHEET ? 7 : MAX), 4);
        break;
    case 10:
        put_number(wear, 8 + any % 248, 4);
        break;
    default:
        put_number(wear, draw_below_zero(), 4);
    }
}

void put_fault(uint8_t *sheet, uint32_t number)
{
    const struct kind kind = {100, 136};
    uint8_t *record = draw_record(sheet);
    uint32_t sheet_kind = sheet[KIND_BYTE], any = any_bits(), which = any_bits() % 2, lower, upper;
    switch (number) {
    case 1:
        sheet[2 + which] = (uint8_t)(one_in(3) ? 0 : 33 + any % 223);
        break;
    case 3:
        if (which && sheet_kind == AMOUNT_SHEET) {
            put_wear(sheet_kind, record, number);
            break;
        }
        draw_infinite(kind, &lower, &upper);
        put_bounds(record, lower, upper);
        break;
    case 4:
        draw_crossed(kind, &lower, &upper);
        put_bounds(record, lower, upper);
        break;
    case 6:
        put_byte(sheet, record);
        break;
    case 7:
        put_outside(sheet, record);
        break;
    case 8:     /* the next index is that of the cell itself, or of the first one */
        put_number(record, which ? index_in(sheet) : (uint32_t)((size_t)(record - sheet) / RECORD_BYTES), 2);
        break;
    default:
        put_wear(sheet_kind, record, number);
    }
}

void put_large(uint8_t *sheet)
{
    uint8_t *record = draw_record(sheet);
    uint32_t fraction = draw_fraction(), bound = draw_number(from_to(239, 254), fraction);
    if (one_in(4))
        bound = draw_sign(MAX);
    put_number(record + (bound & SIGN ? 4 : 8), bound, 4);
}

void put_limit(uint8_t *sheet, const uint8_t *load)
{
    uint8_t *record = draw_record(sheet), *wear = record + WEAR_BYTE;
    const uint8_t *amount = sheet[KIND_BYTE] == CLASS_SHEET ? load + 4 * *wear : wear;
    uint32_t lower, upper;
    if (draw_limit(index_in(amount) | index_in(amount + 2) << 16, &lower, &upper))
        put_bounds(record, lower, upper);
}
