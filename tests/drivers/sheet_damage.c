/* Test drivers, not proved: damages a field of a sheet. */
#include "sheet_damage.h"

#include "draw.h"
#include "numbers.h"
#include "records.h"
#include "wear_draw.h"

static void exchange_bounds(uint8_t *record)
{
    uint8_t lower[4];
    memcpy(lower, record + 4, 4);
    memcpy(record + 4, record + 8, 4);
    memcpy(record + 8, lower, 4);
}

/* Makes one field of a cell wrong, or nearly wrong. */
static void damage_cell(uint8_t *sheet, uint32_t records, uint32_t index)
{
    uint8_t *record = sheet + RECORD_BYTES * index;
    uint32_t which = any_bits() % 2, any = any_bits(), sheet_kind = sheet[KIND_BYTE];
    switch (from_to(0, 11)) {
    case 0:  put_number(record, any_bits() % (records + 2), 2); break;
    case 1:  put_number(record, index, 2); break;
    case 2:  record[2 + which] = (uint8_t)(any % 40); break;
    case 3:  record[WEAR_BYTE + any_bits() % 4] = (uint8_t)any; break;
    case 4: case 5: put_number(record + WEAR_BYTE, draw_wrong_wear(sheet_kind), 4); break;
    case 6: case 7: put_number(record + 4 + 4 * which, INFINITE | any, 4); break;
    case 8:  put_number(record + 4 + 4 * which, draw_pattern(), 4); break;
    case 9:  exchange_bounds(record); break;
    default:    /* a bound that is the largest number or next to it */
        put_number(record + 4 + 4 * which, (which ? MAX : MAX | SIGN) - any % 2, 4);
        put_number(record + WEAR_BYTE, draw_wear(sheet_kind, false), 4);
    }
}

size_t damage_sheet(uint8_t *sheet, size_t length)
{
    uint32_t records = (uint32_t)(length / RECORD_BYTES), any = any_bits(), which = any_bits() % 2;
    uint32_t index = records > 1 ? 1 + any % (records - 1) : 0;
    switch (from_to(0, 16)) {
    case 0:  return length > 20 ? length - any % 20 : length;
    case 1:  return length + any % 33;
    case 2:  put_number(sheet + 4, records + any % 3 - 1, 2); break;
    case 3:  sheet[6 + any_bits() % 10] = (uint8_t)any; break;
    case 4:  sheet[2 + which] = (uint8_t)(one_in(2) ? 33 * (any % 2) : any); break;
    case 5:  put_number(sheet, records + any % 3 - 1, 2); break;
    case 6:  sheet[any % length] = (uint8_t)any_bits(); break;
    case 7:  sheet[KIND_BYTE] = (uint8_t)(which ? any % 4 : any); break;
    case 8: case 9: case 10: damage_cell(sheet, records, index); damage_cell(sheet, records, index); break;
    default: damage_cell(sheet, records, index);
    }
    return length;
}
