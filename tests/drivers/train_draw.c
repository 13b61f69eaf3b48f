/* Test driver of trains, not proved: random arguments. First what is wrong with a train,
   and with which of its sheets, is drawn, then the sheets one after another. */
#include "train_draw.h"

#include "coupling.h"
#include "draw.h"
#include "fault_draw.h"
#include "job_draw.h"
#include "records.h"
#include "sheet_draw.h"

enum wrong { NOTHING, FAULT, DAMAGE, MISFIT, LARGE, RECORDS, LENGTH };

struct plan {
    enum wrong wrong;
    int count, position;    /* of the sheets, and that of the wrong one, from 1 on */
    int later;              /* the position of a faulty sheet behind it, or 0 */
    int sizes[9];           /* sheet p has sizes[p - 1] rows and sizes[p] columns */
    bool full, moderate;
};

static void draw_plan(struct plan *plan)
{
    static const enum wrong wrongs[] = {NOTHING, NOTHING, FAULT, FAULT, FAULT, DAMAGE, MISFIT, LARGE, LARGE, RECORDS, LENGTH};
    plan->full = one_in(1000);
    plan->wrong = plan->full ? NOTHING : wrongs[from_to(0, 10)];
    plan->position = from_to(plan->wrong == MISFIT ? 2 : 1, COUPLING_SHEETS_MAX);
    plan->count = from_to(plan->wrong == NOTHING ? 1 : plan->position, COUPLING_SHEETS_MAX);
    bool two = one_in(3) && plan->wrong != NOTHING && plan->position < plan->count;
    plan->later = two ? from_to(plan->position + 1, plan->count) : 0;
    plan->moderate = plan->full || !one_in(12);
    int most = one_in(200) ? COUPLING_SIZE_MAX : 5;
    for (int i = 0; i < 9; i++)
        plan->sizes[i] = plan->full ? COUPLING_SIZE_MAX : from_to(1, most);
}

/* A valid sheet; where a cell is needed, with one in its chain; in a full train, with all. */
static size_t draw_right_sheet(uint8_t *sheet, const struct plan *plan, int position, bool needs_cell)
{
    size_t length, least = plan->full ? COUPLING_SHEET_MAX : RECORD_BYTES;
    uint32_t rows = (uint32_t)plan->sizes[position - 1], columns = (uint32_t)plan->sizes[position];
    if (plan->wrong == MISFIT && position == plan->position)
        rows = (rows + (uint32_t)from_to(0, COUPLING_SIZE_MAX - 2)) % COUPLING_SIZE_MAX + 1;
    do
        length = draw_valid_sheet(sheet, rows, columns, plan->moderate, plan->moderate);
    while (length < least || (needs_cell && (sheet[0] | sheet[1]) == 0));
    return length;
}

/* Another record count, so that the next sheet begins elsewhere. */
static void change_records(uint8_t *sheet, size_t length)
{
    uint32_t records = (uint32_t)(length / RECORD_BYTES), any = any_bits();
    switch (from_to(0, 2)) {
    case 0:  put_number(sheet + 4, records - 1, 2); break;
    case 1:  put_number(sheet + 4, records + 1, 2); break;
    default: put_number(sheet + 4, any, 2);
    }
}

static size_t draw_next_sheet(uint8_t *sheet, const struct plan *plan, int position)
{
    enum wrong wrong = position == plan->position ? plan->wrong : position == plan->later ? FAULT : NOTHING;
    if (wrong == DAMAGE)
        return draw_sheet(sheet);
    size_t length = draw_right_sheet(sheet, plan, position, wrong == FAULT || wrong == LARGE);
    if (wrong == FAULT)
        put_fault(sheet, draw_fault_number(sheet[KIND_BYTE]));
    else if (wrong == LARGE)
        put_large(sheet);
    else if (wrong == RECORDS)
        change_records(sheet, length);
    return length;
}

/* Bytes that are missing at the end, or too many, or none at all. */
static size_t change_length(uint8_t *sheets, size_t length)
{
    uint32_t any = any_bits();
    size_t surplus = 1 + any % 40;
    switch (from_to(0, 3)) {
    case 0:  return 0;
    case 1:  return any % length;
    case 2:  return length - 1 - any % (length < 40 ? length : 40);
    default: memset(sheets + length, one_in(2) ? 0 : 0xEE, surplus); return length + surplus;
    }
}

/* The count of a call: mostly that of the sheets; 0, 9 or any number; or 1 to 8. */
static uint32_t draw_count(int count)
{
    uint32_t any = any_bits();
    switch (from_to(0, 80)) {
    case 0:  return 0;
    case 1:  return COUPLING_SHEETS_MAX + 1;
    case 2:  return any;
    case 3:  return 1 + any % COUPLING_SHEETS_MAX;
    default: return (uint32_t)count;
    }
}

void draw_train(struct train *train)
{
    struct plan plan;
    uint8_t *sheets = train->sheets + GUARD;
    train->length = 0;
    train->method = draw_method();
    draw_plan(&plan);
    for (int position = 1; position <= plan.count; position++)
        train->length += draw_next_sheet(sheets + train->length, &plan, position);
    if (plan.wrong == LENGTH)
        train->length = change_length(sheets, train->length);
    train->count = draw_count(plan.count);
    train->misfit = plan.wrong == MISFIT ? (uint32_t)plan.position : 0;
    fill_bytes(train->sheets, GUARD);
    fill_bytes(sheets + train->length, GUARD);
}
