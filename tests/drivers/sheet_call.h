/* Test driver of sheets, not proved: a call that reads or writes a sheet. */
#ifndef SHEET_CALL_H
#define SHEET_CALL_H

#include "lent.h"

/* The memory lent to a call: a sheet, which is read or written, the bounds, and a load,
   the wear amounts of a mill. */
struct sheet_memory {
    uint8_t sheet[GUARDED(BYTES)], load[GUARDED(LOAD_BYTES)];
    uint32_t lowers[GUARDED(CELLS)], uppers[GUARDED(CELLS)];
};

/* rows and columns are used by a write only, the load by a read with amounts only. */
struct sheet_call {
    size_t rows, columns, sheet_length, load_length, lowers_length, uppers_length;
    struct sheet_memory memory;
};

/* Fills the memory so that neighbouring words and bytes differ. */
void fill_sheet_call(struct sheet_call *call);

/* Each makes the call to the library and to the independent implementation, and returns
   whether answers and memory are equal. *answer and the memory in call are afterwards
   those of the independent implementation. */
bool read_alike(struct sheet_call *call, uint32_t *answer);
bool read_with_alike(struct sheet_call *call, uint32_t *answer);
bool write_alike(struct sheet_call *call, uint32_t *answer);

#endif
