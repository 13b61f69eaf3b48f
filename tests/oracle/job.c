/* Independent implementation, not proved: the sheet job. */
#include <string.h>

#include "parts.h"

struct refusal read_sheet(uint32_t matrix, const uint8_t *s, size_t len, struct matrix *cells)
{
    struct refusal refusal = oracle_read(s, len, cells->lo, MAX_CELLS,
                                         cells->hi, MAX_CELLS,
                                         &cells->rows, &cells->columns);
    if (refusal.number != 0)
        refusal.matrix = matrix;
    return refusal;
}

/* Checks that the sizes fit (1, matrix 2), multiplies. */
struct refusal multiply_matrices(uint32_t method, const struct matrix *a, const struct matrix *b,
                                 struct matrix *c)
{
    uint32_t m_a[MAX_CELLS], r_a[MAX_CELLS], m_b[MAX_CELLS], r_b[MAX_CELLS];
    memset(m_a, 0, sizeof m_a);
    memset(r_a, 0, sizeof r_a);
    memset(m_b, 0, sizeof m_b);
    memset(r_b, 0, sizeof r_b);
    struct refusal refusal = oracle_check_sizes(a->rows, a->columns, b->rows, b->columns);
    if (refusal.number != 0)
        return refusal;
    c->rows = a->rows;
    c->columns = b->columns;
    return oracle_product(method, a->rows, a->columns, b->columns,
        a->lo, MAX_CELLS, a->hi, MAX_CELLS, b->lo, MAX_CELLS, b->hi, MAX_CELLS,
        m_a, MAX_CELLS, r_a, MAX_CELLS, m_b, MAX_CELLS, r_b, MAX_CELLS,
        c->lo, MAX_CELLS, c->hi, MAX_CELLS);
}

/* Checks the method (9), reads A, reads B, multiplies. */
struct refusal multiply_sheets(uint32_t method, const uint8_t *a, size_t a_len,
                               const uint8_t *b, size_t b_len, struct matrix *c)
{
    struct matrix left = {0}, right = {0};
    if (!method_known(method))
        return refuse(9, 0, 0, 0);
    struct refusal refusal = read_sheet(1, a, a_len, &left);
    if (refusal.number == 0)
        refusal = read_sheet(2, b, b_len, &right);
    if (refusal.number == 0)
        refusal = multiply_matrices(method, &left, &right, c);
    return refusal;
}

uint32_t write_result(struct refusal r, const struct matrix *c, uint32_t matrix,
                      uint8_t *out, size_t out_len)
{
    size_t written = 0;
    if (r.number == 0) {
        r = oracle_write(c->rows, c->columns, c->lo, MAX_CELLS, c->hi, MAX_CELLS,
                         out, out_len, &written);
        if (r.number != 0)
            r.matrix = matrix;
    }
    if (r.number != 0)
        return 1000000 * r.number + 10000 * r.matrix + 100 * r.row + r.column;
    return (uint32_t)written;
}

uint32_t oracle_job(uint32_t method, const uint8_t *a, size_t a_len,
                    const uint8_t *b, size_t b_len,
                    uint8_t *out, size_t out_len)
{
    struct matrix c = {0};
    struct refusal refusal = multiply_sheets(method, a, a_len, b, b_len, &c);
    return write_result(refusal, &c, 3, out, out_len);
}
