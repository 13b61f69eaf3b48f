/* Benchmarks, not proved: binary32 patterns as the machine's floats, and back. */
#ifndef BITS_H
#define BITS_H

#include <stdint.h>
#include <string.h>

static inline float value_of(uint32_t pattern)
{
    float value;
    memcpy(&value, &pattern, sizeof value);
    return value;
}

static inline uint32_t pattern_of(float value)
{
    uint32_t pattern;
    memcpy(&pattern, &value, sizeof pattern);
    return pattern;
}

/* The library's pattern of a result: a zero of either sign is 0. */
static inline uint32_t result_pattern(float value)
{
    return value == 0 ? 0 : pattern_of(value);
}

#endif
