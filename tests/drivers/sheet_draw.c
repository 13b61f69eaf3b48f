/* Test drivers, not proved: random sheets: valid, with damaged fields, with random next
   indices, or of random bytes. */
#include "sheet_draw.h"

#include "draw.h"
#include "lent.h"
#include "numbers.h"
#include "records.h"
#include "sheet_damage.h"
#include "wear_draw.h"

static uint32_t below(uint32_t n) { return any_bits() % n; }

static uint32_t draw_finite(bool moderate)
{
    uint32_t pattern = 0;
    if (moderate)
        return draw_number(from_to(100, 136), draw_fraction());
    do
        pattern = draw_pattern();
    while ((pattern & INFINITE) == INFINITE);
    return pattern;
}

void draw_bounds(bool moderate, uint32_t *lower, uint32_t *upper)
{
    *lower = draw_finite(moderate);
    *upper = one_in(8) ? *lower : draw_finite(moderate);
    put_in_order(lower, upper);
}

/* The numbers 1 to count in random order. */
static void shuffle(uint32_t *index, uint32_t count)
{
    for (uint32_t i = 0; i < count; i++) {
        uint32_t j = below(i + 1);
        index[i] = index[j];
        index[j] = i + 1;
    }
}

size_t draw_valid_sheet(uint8_t *sheet, uint32_t rows, uint32_t columns, bool moderate_bounds, bool moderate_amounts)
{
    uint32_t places[1024], index[1025] = {0}, count = 0, sheet_kind = below(2);
    bool small_amounts = one_in(2) || moderate_amounts;
    int odds = from_to(1, 4);
    for (uint32_t place = 0; place < rows * columns; place++)
        if (one_in(odds))
            places[count++] = place;
    uint32_t records = count + 1 + below(4);
    if (records > 1025)
        records = 1025;
    shuffle(index, count);
    for (size_t i = RECORD_BYTES; i < RECORD_BYTES * records; i++)
        sheet[i] = (uint8_t)any_bits();
    put_head_of(sheet_kind, sheet, index[0], rows, columns, records);
    for (uint32_t i = 0; i < count; i++) {
        uint32_t lower, upper;
        draw_bounds(moderate_bounds, &lower, &upper);
        put_cell(sheet + RECORD_BYTES * index[i], i + 1 < count ? index[i + 1] : 0,
                 places[i] / columns, places[i] % columns, lower, upper, draw_wear(sheet_kind, small_amounts));
    }
    return RECORD_BYTES * records;
}

size_t draw_any_valid_sheet(uint8_t *sheet, bool moderate_bounds)
{
    int most_rows = one_in(8) ? 32 : 5, most_columns = one_in(8) ? 32 : 5;
    uint32_t rows = 1 + below((uint32_t)most_rows), columns = 1 + below((uint32_t)most_columns);
    return draw_valid_sheet(sheet, rows, columns, moderate_bounds, false);
}

/* Records of a small matrix with random next indices. */
static size_t draw_chain(uint8_t *sheet)
{
    uint32_t records = 1 + below(12), rows = 1 + below(3), columns = 1 + below(3), sheet_kind = below(2);
    put_head_of(sheet_kind, sheet, below(records + 1), rows, columns, records);
    for (uint32_t i = 1; i < records; i++) {
        uint32_t lower, upper, link = below(records + 1), row = below(rows), column = below(columns);
        draw_bounds(false, &lower, &upper);
        put_cell(sheet + RECORD_BYTES * i, link, row, column, lower, upper, draw_wear(sheet_kind, false));
    }
    return RECORD_BYTES * records;
}

static size_t draw_bytes(uint8_t *sheet)
{
    size_t length = one_in(4) ? RECORD_BYTES * below(1027) : below(200);
    for (size_t i = 0; i < length; i++)
        sheet[i] = (uint8_t)(one_in(3) ? any_bits() : 0);
    if (one_in(2) && length >= RECORD_BYTES) {
        put_number(sheet + 4, (uint32_t)(length / RECORD_BYTES), 2);
        sheet[KIND_BYTE] = (uint8_t)below(3);
    }
    return length;
}

size_t draw_sheet(uint8_t *sheet)
{
    switch (from_to(0, 7)) {
    case 0:  return draw_any_valid_sheet(sheet, false);
    case 1:  return draw_chain(sheet);
    case 2:  return draw_bytes(sheet);
    case 3:  return damage_sheet(sheet, draw_chain(sheet));
    case 4:  return damage_sheet(sheet, damage_sheet(sheet, draw_any_valid_sheet(sheet, false)));
    default: return damage_sheet(sheet, draw_any_valid_sheet(sheet, false));
    }
}
