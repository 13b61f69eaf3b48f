/* Test driver of sheets, not proved: random calls that read or write a sheet. Each function
   draws the arguments of a call whose memory was filled, and returns the column in which
   the outcome of the call is counted. */
#ifndef SHEET_CALL_DRAW_H
#define SHEET_CALL_DRAW_H

#include "sheet_call.h"

/* A read of a sheet; most are damaged. The column is that of the sheet's kind, the last one
   for a byte that is no kind, or where the sheet ends before it. */
enum { CLASS_COLUMN, AMOUNT_COLUMN, NO_KIND_COLUMN };
int draw_read(struct sheet_call *call);

/* A write of a matrix, some with faulty cells. Column 0. */
int draw_write(struct sheet_call *call);

/* A read with a load, about half of which are valid. The columns, each for class sheets and
   the next one for amount sheets: a load that is refused; behind a valid load any sheet, or
   one without fault whose bounds are moderate, so that only a large amount can make them too
   large, or one with a cell that is close to the largest number when it is widened. The last
   column is for sheets of no kind. */
enum { LOAD_COLUMN = 0, SHEET_COLUMN = 2, MODERATE_COLUMN = 4, LIMIT_COLUMN = 6, WITH_NO_KIND_COLUMN = 8 };
int draw_read_with(struct sheet_call *call);

#endif
