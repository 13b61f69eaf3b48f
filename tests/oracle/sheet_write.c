/* Independent implementation, not proved: the writer of the coupling sheet, which writes
   amount sheets with the amount zero. */
#include <string.h>

#include "parts.h"
#include "records.h"

static void put_16(uint8_t *bytes, uint32_t value)
{
    bytes[0] = (uint8_t)value;
    bytes[1] = (uint8_t)(value >> 8);
}

static void put_32(uint8_t *bytes, uint32_t value)
{
    put_16(bytes, value & 0xFFFF);
    put_16(bytes + 2, value >> 16);
}

/* Whether both bounds are zeros, of either sign. */
static bool is_zero_cell(uint32_t lo, uint32_t hi)
{
    return magnitude(lo) == 0 && magnitude(hi) == 0;
}

/* Refusals 1, 2, then 3 and 4 by cells, then 11; *needed is the length of the sheet. */
static struct refusal check_write(size_t rows, size_t columns,
                                  const uint32_t *lo, size_t lo_len,
                                  const uint32_t *hi, size_t hi_len,
                                  size_t out_len, size_t *needed)
{
    if (!size_in_range(rows) || !size_in_range(columns))
        return refuse(1, 0, 0, 0);
    size_t cells = rows * columns;
    if (lo_len < cells || hi_len < cells)
        return refuse(2, 0, 0, 0);
    for (size_t i = 0; i < cells; i++) {
        uint32_t number = check_bounds(lo[i], hi[i]);
        if (number != 0)
            return refuse(number, 0, i / columns, i % columns);
    }
    *needed = RECORD_BYTES;
    for (size_t i = 0; i < cells; i++)
        if (!is_zero_cell(lo[i], hi[i]))
            *needed += RECORD_BYTES;
    return *needed > out_len ? refuse(11, 0, 0, 0) : ACCEPTED;
}

struct refusal oracle_write(size_t rows, size_t columns,
                            const uint32_t *lo, size_t lo_len,
                            const uint32_t *hi, size_t hi_len,
                            uint8_t *out, size_t out_len, size_t *written)
{
    size_t needed = 0;
    *written = 0;
    struct refusal refusal = check_write(rows, columns, lo, lo_len, hi, hi_len,
                                         out_len, &needed);
    if (refusal.number != 0)
        return refusal;
    uint32_t records = (uint32_t)(needed / RECORD_BYTES), index = 1;
    memset(out, 0, needed);
    put_16(out, records > 1 ? 1 : 0);
    out[2] = (uint8_t)rows;
    out[3] = (uint8_t)columns;
    put_16(out + 4, records);
    out[KIND_BYTE] = AMOUNT_SHEET;
    for (size_t i = 0; i < rows * columns; i++) {
        if (is_zero_cell(lo[i], hi[i]))
            continue;
        uint8_t *record = out + RECORD_BYTES * index;
        index++;
        put_16(record, index < records ? index : 0);
        record[2] = (uint8_t)(i / columns);
        record[3] = (uint8_t)(i % columns);
        put_32(record + 4, magnitude(lo[i]) == 0 ? 0 : lo[i]);
        put_32(record + 8, magnitude(hi[i]) == 0 ? 0 : hi[i]);
    }
    *written = needed;
    return ACCEPTED;
}
