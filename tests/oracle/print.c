/* Independent implementation, not proved: the printed product. */
#include <inttypes.h>
#include <stdarg.h>
#include <stdio.h>

#include "parts.h"

#define GREATEST_INPUT 32802

/* A text that is being written: its buffer, which may be too short, and its full length. */
struct text {
    char *bytes;
    size_t room, length;
};

static void append(struct text *text, const char *format, ...)
{
    char line[80];
    va_list arguments;
    va_start(arguments, format);
    int count = vsnprintf(line, sizeof line, format, arguments);
    va_end(arguments);
    for (int i = 0; i < count; i++) {
        if (text->length < text->room)
            text->bytes[text->length] = line[i];
        text->length++;
    }
}

size_t oracle_print(const uint8_t *input, size_t len, char *text, size_t room)
{
    struct text out = {text, room, 0};
    struct matrix c = {0};
    struct refusal r = refuse(9, 0, 0, 0);
    uint32_t method = 0;
    if (len > GREATEST_INPUT)
        len = GREATEST_INPUT;
    if (len > 0 && input[0] >= '0' && input[0] <= '9') {
        const uint8_t *a = input + 1;
        size_t a_len = length_of_first(a, len - 1);
        method = (uint32_t)(input[0] - '0');
        r = multiply_sheets(method, a, a_len, a + a_len, len - 1 - a_len, &c);
    }
    if (r.number != 0) {
        append(&out, "refused %" PRIu32 " %" PRIu32 " %" PRIu32 " %" PRIu32 "\n",
               r.number, r.matrix, r.row, r.column);
        return out.length;
    }
    append(&out, "product %" PRIu32 " %zu %zu\n", method, c.rows, c.columns);
    for (size_t i = 0; i < c.rows; i++)
        for (size_t j = 0; j < c.columns; j++)
            append(&out, "%zu %zu %08" PRIX32 " %08" PRIX32 "\n", i, j,
                   c.lo[i * c.columns + j], c.hi[i * c.columns + j]);
    return out.length;
}
