/* Test driver of sheets, not proved: random calls that read or write a sheet. */
#include "sheet_call_draw.h"

#include "amounts_draw.h"
#include "coupling.h"
#include "draw.h"
#include "fault_draw.h"
#include "numbers.h"
#include "oracle.h"
#include "records.h"
#include "sheet_draw.h"

/* The length of a slice: as many words as there are cells, a few more, or too few. */
static size_t draw_length(size_t cells)
{
    bool too_few = one_in(16);
    return too_few ? any_bits() % (cells + 1) : cells + any_bits() % 3;
}

/* The lengths of both slices of bounds, for the sizes in the head of the sheet. */
static void draw_lengths(struct sheet_call *call)
{
    const uint8_t *sheet = call->memory.sheet + GUARD;
    size_t cells = (size_t)sheet[2] * sheet[3];
    if (cells > COUPLING_CELLS_MAX)
        cells = COUPLING_CELLS_MAX;
    call->lowers_length = draw_length(cells);
    call->uppers_length = draw_length(cells);
}

/* The column of the sheet's kind. */
static int kind_column(const struct sheet_call *call)
{
    uint8_t kind = call->memory.sheet[GUARD + KIND_BYTE];
    if (call->sheet_length <= KIND_BYTE || kind > AMOUNT_SHEET)
        return NO_KIND_COLUMN;
    return kind == CLASS_SHEET ? CLASS_COLUMN : AMOUNT_COLUMN;
}

int draw_read(struct sheet_call *call)
{
    call->sheet_length = draw_sheet(call->memory.sheet + GUARD);
    draw_lengths(call);
    return kind_column(call);
}

int draw_read_with(struct sheet_call *call)
{
    uint8_t *sheet = call->memory.sheet + GUARD, *load = call->memory.load + GUARD;
    int column = one_in(2) ? SHEET_COLUMN : one_in(2) ? MODERATE_COLUMN : LIMIT_COLUMN;
    call->load_length = draw_load(load);
    call->sheet_length = column == SHEET_COLUMN ? draw_sheet(sheet) : draw_any_valid_sheet(sheet, true);
    bool has_cell = (sheet[0] | sheet[1]) != 0;
    if (column == LIMIT_COLUMN && has_cell)
        put_limit(sheet, load);
    draw_lengths(call);
    if (oracle_check_amounts(load, call->load_length) != 0)
        column = LOAD_COLUMN;
    int of_kind = kind_column(call);
    return of_kind == NO_KIND_COLUMN ? WITH_NO_KIND_COLUMN : column + of_kind;
}

/* Draws the cells of a matrix, a third of them [0, 0], and returns the length of its
   sheet. */
static size_t draw_matrix(uint32_t *lowers, uint32_t *uppers, size_t cells)
{
    size_t length = 16;
    for (size_t i = 0; i < cells; i++) {
        if (one_in(3)) {
            lowers[i] = draw_sign(0);
            uppers[i] = draw_sign(0);
        } else
            draw_bounds(false, &lowers[i], &uppers[i]);
        length += ((lowers[i] | uppers[i]) & ~SIGN) != 0 ? 16 : 0;
    }
    if (one_in(6))
        lowers[any_bits() % cells] = draw_not_finite();
    if (one_in(6))
        uppers[any_bits() % cells] = draw_pattern();
    return length;
}

static size_t draw_wrong_size(void)
{
    return one_in(2) ? 0 : (size_t)from_to(33, 35);
}

int draw_write(struct sheet_call *call)
{
    int most_rows = one_in(8) ? 32 : 5, most_columns = one_in(8) ? 32 : 5;
    call->rows = (size_t)from_to(1, most_rows);
    call->columns = (size_t)from_to(1, most_columns);
    size_t cells = call->rows * call->columns;
    size_t needed = draw_matrix(call->memory.lowers + GUARD, call->memory.uppers + GUARD, cells);
    if (one_in(12))
        call->rows = draw_wrong_size();
    if (one_in(12))
        call->columns = draw_wrong_size();
    call->lowers_length = draw_length(cells);
    call->uppers_length = draw_length(cells);
    switch (from_to(0, 3)) {
    case 0:  call->sheet_length = any_bits() % BYTES; break;
    case 1:  call->sheet_length = needed - (size_t)from_to(1, 16); break;
    default: call->sheet_length = needed + (size_t)from_to(0, 39); break;
    }
    return 0;
}
