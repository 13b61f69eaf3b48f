/* Tests and benchmarks, not proved: the records of a coupling sheet as bytes. */
#ifndef RECORDS_H
#define RECORDS_H

#include <stdbool.h>
#include <stddef.h>
#include <stdint.h>
#include <string.h>

#define RECORD_BYTES ((size_t)16)     /* bytes of a record */

/* The kind of a sheet, in byte 6 of its head: what a cell holds in bytes 12 to 15, its wear,
   is a wear class, or the wear amount itself. */
enum { CLASS_SHEET = 0, AMOUNT_SHEET = 1, KIND_BYTE = 6, WEAR_BYTE = 12 };

/* Numbers of more than one byte are little-endian. */
static inline void put_number(uint8_t *bytes, uint32_t value, int count)
{
    for (int i = 0; i < count; i++)
        bytes[i] = (uint8_t)(value >> 8 * i);
}

static inline void put_head_of(uint32_t kind, uint8_t *record, uint32_t first, uint32_t rows,
                               uint32_t columns, uint32_t records)
{
    memset(record, 0, RECORD_BYTES);
    put_number(record, first, 2);
    record[2] = (uint8_t)rows;
    record[3] = (uint8_t)columns;
    put_number(record + 4, records, 2);
    record[KIND_BYTE] = (uint8_t)kind;
}

/* The head of a class sheet. */
static inline void put_head(uint8_t *record, uint32_t first, uint32_t rows,
                            uint32_t columns, uint32_t records)
{
    put_head_of(CLASS_SHEET, record, first, rows, columns, records);
}

/* A cell of either kind of sheet: a class leaves zeros in bytes 13 to 15. */
static inline void put_cell(uint8_t *record, uint32_t next, uint32_t row, uint32_t column,
                            uint32_t lower, uint32_t upper, uint32_t wear)
{
    memset(record, 0, RECORD_BYTES);
    put_number(record, next, 2);
    record[2] = (uint8_t)row;
    record[3] = (uint8_t)column;
    put_number(record + 4, lower, 4);
    put_number(record + 8, upper, 4);
    put_number(record + WEAR_BYTE, wear, 4);
}

/* The fixed wear amount of a class: 0 for class 0, 2^(c - 11) for class c from 1 to 7. */
static inline uint32_t fixed_amount(uint32_t wear_class)
{
    return wear_class == 0 ? 0 : (127 + wear_class - 11) << 23;
}

/* The longest sheet, 16,400 bytes: 32 by 32, no cell [0, 0]; worn by all wear classes or, in
   an amount sheet, by their fixed amounts; or not worn, by class 0 or amount 0. */
static inline void put_full_of(uint32_t kind, uint8_t *sheet, bool worn)
{
    put_head_of(kind, sheet, 1, 32, 32, 1025);
    for (uint32_t i = 1; i <= 1024; i++) {
        uint32_t wear_class = worn ? i % 8 : 0;
        put_cell(sheet + RECORD_BYTES * i, i == 1024 ? 0 : i + 1, (i - 1) / 32, (i - 1) % 32,
                 0x3F800000 + 977 * i, 0x3F800000 + 1009 * i,
                 kind == CLASS_SHEET ? wear_class : fixed_amount(wear_class));
    }
}

/* The full class sheet with all wear classes. */
static inline void put_full(uint8_t *sheet)
{
    put_full_of(CLASS_SHEET, sheet, true);
}

#endif
