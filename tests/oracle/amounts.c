/* Independent implementation, not proved: the fixed wear amounts, and the check of a load, the
   eight wear amounts of a mill. */
#include "parts.h"

#define AMOUNT 4        /* bytes of an amount in a load */

const uint32_t fixed_amounts[CLASSES] = {
    0x00000000, 0x3A800000, 0x3B000000, 0x3B800000,
    0x3C000000, 0x3C800000, 0x3D000000, 0x3D800000,
};

/* The amount of a wear class in a load that has 32 bytes. */
static uint32_t amount_of(const uint8_t *load, size_t wear_class)
{
    return get_32(load + AMOUNT * wear_class);
}

/* Amounts are compared by value, so that a zero may have either sign. */
uint32_t oracle_check_amounts(const uint8_t *load, size_t load_len)
{
    if (load_len != AMOUNT * CLASSES)
        return 6;
    for (size_t c = 0; c < CLASSES; c++)
        if (!is_finite(amount_of(load, c)))
            return 3;
    if (value_of(amount_of(load, 0)) != 0)
        return 13;
    for (size_t c = 1; c < CLASSES; c++)
        if (value_of(amount_of(load, c)) < value_of(amount_of(load, c - 1)))
            return 13;
    return 0;
}

uint32_t load_amounts(const uint8_t *load, size_t load_len, uint32_t *amounts)
{
    uint32_t number = oracle_check_amounts(load, load_len);
    for (size_t c = 0; number == 0 && c < CLASSES; c++)
        amounts[c] = amount_of(load, c);
    return number;
}
