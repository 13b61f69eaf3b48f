/* Test driver of sheets, not proved: makes the same call that reads or writes a sheet to
   the library and to the independent implementation. */
#include "sheet_call.h"

#include "coupling.h"
#include "run.h"

static struct sheet_memory library;

void fill_sheet_call(struct sheet_call *call)
{
    fill_bytes(call->memory.sheet, GUARDED(BYTES));
    fill_bytes(call->memory.load, GUARDED(LOAD_BYTES));
    fill_words(call->memory.lowers, GUARDED(CELLS));
    fill_words(call->memory.uppers, GUARDED(CELLS));
}

/* Compares the two answers, and the memory afterwards. */
static bool alike(const struct sheet_memory *expected, uint32_t given, uint32_t answer)
{
    bool same = same_number("answer", given, answer);
    same = same_bytes("sheet", library.sheet, expected->sheet, GUARDED(BYTES)) && same;
    same = same_bytes("amounts", library.load, expected->load, GUARDED(LOAD_BYTES)) && same;
    same = same_words("lowers", library.lowers, expected->lowers, GUARDED(CELLS)) && same;
    return same_words("uppers", library.uppers, expected->uppers, GUARDED(CELLS)) && same;
}

static uint32_t answer_of_read(struct refusal refusal, size_t rows, size_t columns)
{
    return refusal.number != 0 ? code_of(refusal) : (uint32_t)(100 * rows + columns);
}

/* Arguments: a slice of the memory with its length in the call. */
#define SLICE(memory, name) memory.name + GUARD, call->name##_length
#define SHEET_AND_BOUNDS(memory) SLICE(memory, sheet), SLICE(memory, lowers), SLICE(memory, uppers)
#define BOUNDS_AND_SHEET(memory) SLICE(memory, lowers), SLICE(memory, uppers), SLICE(memory, sheet)

bool read_alike(struct sheet_call *call, uint32_t *answer)
{
    size_t rows = 0, columns = 0;
    library = call->memory;
    uint32_t given = coupling_read(SHEET_AND_BOUNDS(library));
    struct refusal refusal = oracle_read(SHEET_AND_BOUNDS(call->memory), &rows, &columns);
    *answer = answer_of_read(refusal, rows, columns);
    return alike(&call->memory, given, *answer);
}

bool read_with_alike(struct sheet_call *call, uint32_t *answer)
{
    size_t rows = 0, columns = 0;
    library = call->memory;
    uint32_t given = coupling_read_with(SLICE(library, load), SHEET_AND_BOUNDS(library));
    struct refusal refusal = oracle_read_with(SLICE(call->memory, load), SHEET_AND_BOUNDS(call->memory), &rows, &columns);
    *answer = answer_of_read(refusal, rows, columns);
    return alike(&call->memory, given, *answer);
}

bool write_alike(struct sheet_call *call, uint32_t *answer)
{
    size_t written = 0;
    library = call->memory;
    uint32_t given = coupling_write(call->rows, call->columns, BOUNDS_AND_SHEET(library));
    struct refusal refusal = oracle_write(call->rows, call->columns, BOUNDS_AND_SHEET(call->memory), &written);
    *answer = refusal.number != 0 ? code_of(refusal) : (uint32_t)written;
    return alike(&call->memory, given, *answer);
}
