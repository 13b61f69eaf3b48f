/* Independent implementation, not proved: the reader of the coupling sheet. */
#include <string.h>

#include "parts.h"
#include "records.h"

#define LEAST_LENGTH 16
#define GREATEST_LENGTH 16400

static uint32_t get_16(const uint8_t *bytes)
{
    return (uint32_t)bytes[0] | (uint32_t)bytes[1] << 8;
}

uint32_t get_32(const uint8_t *bytes)
{
    return get_16(bytes) | get_16(bytes + 2) << 16;
}

bool all_zero(const uint8_t *bytes, size_t count)
{
    for (size_t i = 0; i < count; i++)
        if (bytes[i] != 0)
            return false;
    return true;
}

/* Whether the length is one of a sheet, and that of its record count. */
static bool length_is_good(const uint8_t *s, size_t len)
{
    return len % RECORD_BYTES == 0 && len >= LEAST_LENGTH && len <= GREATEST_LENGTH
        && len == RECORD_BYTES * get_16(s + 4);
}

/* Whether length and head pass the check for refusal 6: zeros follow a kind that is known. */
static bool frame_is_good(const uint8_t *s, size_t len)
{
    return length_is_good(s, len) && s[KIND_BYTE] <= AMOUNT_SHEET && all_zero(s + KIND_BYTE + 1, 9);
}

uint32_t oracle_check_before(const uint8_t *s, size_t len)
{
    return length_is_good(s, len) && all_zero(s + 6, 10) ? 0 : 6;
}

size_t length_of_first(const uint8_t *sheets, size_t len)
{
    if (len < 6)
        return len;
    size_t wanted = RECORD_BYTES * get_16(sheets + 4);
    return wanted < len ? wanted : len;
}

/* Follows the chain and puts its cells into the matrix, whose sizes are set and whose
   cells are all [0, 0]. An index is checked before its record is read. */
static struct refusal read_chain(const uint32_t *amounts, const uint8_t *s, struct matrix *cells)
{
    uint32_t records = get_16(s + 4);
    bool first = true;
    size_t last_place = 0;
    for (uint32_t index = get_16(s); index != 0; ) {
        if (index >= records)
            return refuse(7, 0, 0, 0);
        const uint8_t *record = s + RECORD_BYTES * index;
        size_t row = record[2], column = record[3];
        if (row >= cells->rows || column >= cells->columns)
            return refuse(7, 0, 0, 0);
        size_t place = row * cells->columns + column;
        if (!first && place <= last_place)
            return refuse(8, 0, 0, 0);
        uint32_t number = read_cell(s[KIND_BYTE], amounts, record, &cells->lo[place], &cells->hi[place]);
        if (number == 6)
            return refuse(6, 0, 0, 0);
        if (number != 0)
            return refuse(number, 0, row, column);
        first = false;
        last_place = place;
        index = get_16(record);
    }
    return ACCEPTED;
}

static struct refusal read_by(const uint32_t *amounts, const uint8_t *s, size_t len,
                              uint32_t *lo, size_t lo_len, uint32_t *hi, size_t hi_len,
                              size_t *rows, size_t *columns)
{
    if (!frame_is_good(s, len))
        return refuse(6, 0, 0, 0);
    struct matrix cells = {.rows = s[2], .columns = s[3]};
    if (!size_in_range(cells.rows) || !size_in_range(cells.columns))
        return refuse(1, 0, 0, 0);
    size_t count = cells.rows * cells.columns;
    if (lo_len < count || hi_len < count)
        return refuse(2, 0, 0, 0);
    struct refusal refusal = read_chain(amounts, s, &cells);
    if (refusal.number != 0)
        return refusal;
    memcpy(lo, cells.lo, count * sizeof *lo);
    memcpy(hi, cells.hi, count * sizeof *hi);
    *rows = cells.rows;
    *columns = cells.columns;
    return ACCEPTED;
}

struct refusal oracle_read(const uint8_t *s, size_t len,
                           uint32_t *lo, size_t lo_len,
                           uint32_t *hi, size_t hi_len,
                           size_t *rows, size_t *columns)
{
    return read_by(fixed_amounts, s, len, lo, lo_len, hi, hi_len, rows, columns);
}

struct refusal oracle_read_with(const uint8_t *load, size_t load_len,
                                const uint8_t *s, size_t len,
                                uint32_t *lo, size_t lo_len,
                                uint32_t *hi, size_t hi_len,
                                size_t *rows, size_t *columns)
{
    uint32_t amounts[CLASSES], number = load_amounts(load, load_len, amounts);
    if (number != 0)
        return refuse(number, 0, 0, 0);
    return read_by(amounts, s, len, lo, lo_len, hi, hi_len, rows, columns);
}
