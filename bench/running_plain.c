/* Benchmarks, not proved: the start of a running entry and the exchange of its amounts in
   plain C, for all that take pairs in plain C. */
#include <string.h>

#include "../tests/oracle/records.h"
#include "plain_order.h"
#include "running.h"

#define AMOUNTS COUPLING_RUNNING_AMOUNTS

uint32_t plain_start(uint32_t *value, size_t value_len)
{
    if (value_len < COUPLING_RUNNING_WORDS)
        return refusal(COUPLING_SHORT);
    memset(value, 0, AMOUNTS * sizeof *value);
    for (uint32_t c = 0; c < 8; c++)
        value[AMOUNTS + c] = fixed_amount(c);
    return 0;
}

uint32_t plain_amounts(uint32_t *value, size_t value_len, const uint8_t *load, size_t load_len)
{
    uint32_t amounts[8];
    if (value_len < COUPLING_RUNNING_WORDS)
        return refusal(COUPLING_SHORT);
    if (load_len != COUPLING_LOAD_BYTES)
        return refusal(COUPLING_LAYOUT);
    for (size_t c = 0; c < 8; c++, load += 4) {
        amounts[c] = (uint32_t)load[0] | (uint32_t)load[1] << 8 | (uint32_t)load[2] << 16 | (uint32_t)load[3] << 24;
        if (!is_finite(amounts[c]))
            return refusal(COUPLING_NOT_FINITE);
    }
    if (order(amounts[0]) != 0)
        return refusal(COUPLING_AMOUNTS);
    for (size_t c = 1; c < 8; c++)
        if (order(amounts[c]) < order(amounts[c - 1]))
            return refusal(COUPLING_AMOUNTS);
    memcpy(value + AMOUNTS, amounts, sizeof amounts);
    return 0;
}
