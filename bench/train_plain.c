/* Benchmarks, not proved: a train in plain C, over 64-bit integers and on the
   machine's floats. Each sheet is read once and only the last product is written, by
   the reader and writer of plain_sheet.c. */
#include <string.h>

#include "../tests/oracle/oracle.h"
#include "integer_product.h"
#include "plain_product.h"
#include "train.h"

/* Reads a sheet of the train, which has the train's size. */
static bool read_sheet(const struct train *train, size_t index, uint32_t *lower, uint32_t *upper)
{
    size_t rows, columns;
    struct refusal refusal = oracle_read(sheet_at(train, index), train->length, lower, CELLS, upper, CELLS, &rows, &columns);
    return refusal.number == 0 && rows == train->size && columns == train->size;
}

static size_t write_sheet(size_t size, const uint32_t *lower, const uint32_t *upper, uint8_t *out)
{
    size_t written;
    oracle_write(size, size, lower, CELLS, upper, CELLS, out, COUPLING_SHEET_MAX, &written);
    return written;
}

/* ---- integers */

typedef bool product_call(int method, size_t m, size_t k, size_t n, struct patterns *p);

static size_t run_patterns(int method, const struct train *train, uint8_t *out, product_call *multiply)
{
    static struct patterns p;
    size_t n = train->size, bytes = n * n * sizeof p.al[0];
    if (!read_sheet(train, 0, p.al, p.au))
        return 0;
    for (size_t i = 1; i < SHEETS; i++) {
        if (!read_sheet(train, i, p.bl, p.bu) || !multiply(method, n, n, n, &p))
            return 0;
        memcpy(p.al, p.lo, bytes);
        memcpy(p.au, p.up, bytes);
    }
    return write_sheet(n, p.lo, p.up, out);
}

static size_t run_integers(int method, const struct train *train, uint8_t *out)
{
    return run_patterns(method, train, out, integer_product);
}

static size_t run_once(int method, const struct train *train, uint8_t *out)
{
    return run_patterns(method, train, out, integer_once);
}

const struct train_peer peer_train_integers = {"plain C, 64-bit integers", ALL_METHODS, run_integers};
const struct train_peer peer_train_once = {"plain C, each product once", "15", run_once};

/* ---- the machine's floats */

static uint32_t lower[CELLS], upper[CELLS];

static bool read_floats(const struct train *train, size_t index, float *lo, float *up)
{
    size_t bytes = train->size * train->size * sizeof *lo;
    bool read = read_sheet(train, index, lower, upper);
    memcpy(lo, lower, bytes);
    memcpy(up, upper, bytes);
    return read;
}

static size_t run_machine(int method, const struct train *train, uint8_t *out)
{
    static struct floats f;
    size_t n = train->size, bytes = n * n * sizeof f.al[0];
    if (!read_floats(train, 0, f.al, f.au))
        return 0;
    for (size_t i = 1; i < SHEETS; i++) {
        if (!read_floats(train, i, f.bl, f.bu) || !plain_product(method, n, n, n, &f))
            return 0;
        memcpy(f.al, f.lo, bytes);
        memcpy(f.au, f.up, bytes);
    }
    memcpy(lower, f.lo, bytes);
    memcpy(upper, f.up, bytes);
    return write_sheet(n, lower, upper, out);
}

const struct train_peer peer_train_machine = {"hardware floats, fesetround", ALL_METHODS, run_machine};
