/* Test drivers, not proved: damages a field of a sheet. */
#ifndef SHEET_DAMAGE_H
#define SHEET_DAMAGE_H

#include <stddef.h>
#include <stdint.h>

/* Makes one field of a sheet, two fields of one cell, or the length wrong or nearly wrong.
   Returns the length. The memory has at least 32 bytes behind the sheet. */
size_t damage_sheet(uint8_t *sheet, size_t length);

#endif
