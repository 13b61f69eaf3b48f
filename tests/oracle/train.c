/* Independent implementation, not proved: the train, a product of 1 to 8 sheets. */
#include "parts.h"

#define MAX_SHEETS 8
#define NO_SHEET 9      /* the matrix number of a product and of the writing */

/* Multiplies the product so far by the matrix of the sheet at this position: sizes that
   do not fit name the position (1), an entry that is too large names no sheet (5). */
static struct refusal multiply_on(uint32_t method, uint32_t position, struct matrix *so_far,
                                  const struct matrix *right)
{
    struct matrix product = {0};
    struct refusal refusal = multiply_matrices(method, so_far, right, &product);
    if (refusal.number != 0)
        refusal.matrix = refusal.number == 1 ? position : NO_SHEET;
    *so_far = product;
    return refusal;
}

/* Checks the method (9) and the count (12), then takes sheet after sheet: reads it, and
   multiplies. The last sheet has all bytes that are left. */
static struct refusal multiply_train(uint32_t method, uint32_t count, const uint8_t *sheets,
                                     size_t len, struct matrix *so_far)
{
    if (!method_known(method))
        return refuse(9, 0, 0, 0);
    if (count < 1 || count > MAX_SHEETS)
        return refuse(12, 0, 0, 0);
    struct refusal refusal = ACCEPTED;
    for (uint32_t position = 1; position <= count && refusal.number == 0; position++) {
        struct matrix sheet = {0};
        size_t length = position < count ? length_of_first(sheets, len) : len;
        refusal = read_sheet(position, sheets, length, &sheet);
        if (position == 1)
            *so_far = sheet;
        else if (refusal.number == 0)
            refusal = multiply_on(method, position, so_far, &sheet);
        sheets += length;
        len -= length;
    }
    return refusal;
}

uint32_t oracle_train(uint32_t method, uint32_t count, const uint8_t *sheets, size_t len,
                      uint8_t *out, size_t out_len)
{
    struct matrix product = {0};
    struct refusal refusal = multiply_train(method, count, sheets, len, &product);
    return write_result(refusal, &product, NO_SHEET, out, out_len);
}
