/* Independent implementation, not proved: the matrix product, with its checks in order,
   the place of a refusal, and the lent memory afterwards. */
#include "parts.h"

struct refusal oracle_check_sizes(size_t a_rows, size_t a_columns,
                                  size_t b_rows, size_t b_columns)
{
    if (!size_in_range(a_rows) || !size_in_range(a_columns))
        return refuse(1, 1, 0, 0);
    if (!size_in_range(b_rows) || !size_in_range(b_columns) || a_columns != b_rows)
        return refuse(1, 2, 0, 0);
    return ACCEPTED;
}

/* Refusal 3 or 4 for the first faulty cell by rows; at each cell 3 before 4. */
static struct refusal check_cells(uint32_t matrix, size_t rows, size_t columns,
                                  const uint32_t *lo, const uint32_t *hi)
{
    for (size_t i = 0; i < rows; i++)
        for (size_t j = 0; j < columns; j++) {
            uint32_t number = check_bounds(lo[i * columns + j], hi[i * columns + j]);
            if (number != 0)
                return refuse(number, matrix, i, j);
        }
    return ACCEPTED;
}

static void convert_matrix(size_t cells, const uint32_t *lo, const uint32_t *hi,
                           uint32_t *m, uint32_t *r)
{
    for (size_t i = 0; i < cells; i++)
        oracle_to_midrad(lo[i], hi[i], &m[i], &r[i]);
}

static void take_bounds(struct pair *pair, uint32_t a_lo, uint32_t a_hi,
                        uint32_t b_lo, uint32_t b_hi)
{
    pair->a_lo = a_lo;
    pair->a_hi = a_hi;
    pair->b_lo = b_lo;
    pair->b_hi = b_hi;
}

static void take_midrad(struct pair *pair, uint32_t m_a, uint32_t r_a,
                        uint32_t m_b, uint32_t r_b)
{
    pair->m_a = m_a;
    pair->r_a = r_a;
    pair->m_b = m_b;
    pair->r_b = r_b;
}

static void clear(size_t cells, uint32_t *lo, uint32_t *hi)
{
    for (size_t i = 0; i < cells; i++)
        lo[i] = hi[i] = 0;
}

/* All checks before the product is computed: 9, 1, 2, then 3 and 4 for A's cells, then
   for B's. */
static struct refusal check_product(uint32_t method, size_t m, size_t k, size_t n,
    const uint32_t *a_lo, size_t a_lo_len, const uint32_t *a_hi, size_t a_hi_len,
    const uint32_t *b_lo, size_t b_lo_len, const uint32_t *b_hi, size_t b_hi_len,
    size_t m_a_len, size_t r_a_len, size_t m_b_len, size_t r_b_len,
    size_t c_lo_len, size_t c_hi_len)
{
    if (!method_known(method))
        return refuse(9, 0, 0, 0);
    struct refusal refusal = oracle_check_sizes(m, k, k, n);
    if (refusal.number != 0)
        return refusal;
    if (a_lo_len < m * k || a_hi_len < m * k)
        return refuse(2, 1, 0, 0);
    if (b_lo_len < k * n || b_hi_len < k * n)
        return refuse(2, 2, 0, 0);
    if (m_a_len < m * k || r_a_len < m * k || m_b_len < k * n || r_b_len < k * n)
        return refuse(2, 0, 0, 0);
    if (c_lo_len < m * n || c_hi_len < m * n)
        return refuse(2, 3, 0, 0);
    refusal = check_cells(1, m, k, a_lo, a_hi);
    if (refusal.number != 0)
        return refusal;
    return check_cells(2, k, n, b_lo, b_hi);
}

struct refusal oracle_product(uint32_t method, size_t m, size_t k, size_t n,
    const uint32_t *a_lo, size_t a_lo_len, const uint32_t *a_hi, size_t a_hi_len,
    const uint32_t *b_lo, size_t b_lo_len, const uint32_t *b_hi, size_t b_hi_len,
    uint32_t *m_a, size_t m_a_len, uint32_t *r_a, size_t r_a_len,
    uint32_t *m_b, size_t m_b_len, uint32_t *r_b, size_t r_b_len,
    uint32_t *c_lo, size_t c_lo_len, uint32_t *c_hi, size_t c_hi_len)
{
    struct refusal refusal = check_product(method, m, k, n,
        a_lo, a_lo_len, a_hi, a_hi_len, b_lo, b_lo_len, b_hi, b_hi_len,
        m_a_len, r_a_len, m_b_len, r_b_len, c_lo_len, c_hi_len);
    if (refusal.number != 0)
        return refusal;
    if (method != 1) {
        convert_matrix(m * k, a_lo, a_hi, m_a, r_a);
        convert_matrix(k * n, b_lo, b_hi, m_b, r_b);
    }
    for (size_t i = 0; i < m; i++)
        for (size_t j = 0; j < n; j++) {
            struct pair pairs[MAX_SIZE] = {{0}};
            for (size_t l = 0; l < k; l++) {
                size_t a = i * k + l, b = l * n + j;
                take_bounds(&pairs[l], a_lo[a], a_hi[a], b_lo[b], b_hi[b]);
                if (method != 1)
                    take_midrad(&pairs[l], m_a[a], r_a[a], m_b[b], r_b[b]);
            }
            struct entry entry = entry_by_method(method, pairs, k);
            if (entry.refused) {
                clear(m * n, c_lo, c_hi);
                return refuse(5, 3, i, j);
            }
            c_lo[i * n + j] = entry.lo;
            c_hi[i * n + j] = entry.hi;
        }
    return ACCEPTED;
}
