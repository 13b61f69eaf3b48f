/* Benchmarks, not proved: random numbers by the splitmix64 generator, the same in
   each run. */
#ifndef DRAW_H
#define DRAW_H

#include <stdint.h>

static inline uint64_t draw(void)
{
    static uint64_t state = 32;
    uint64_t z = state += 0x9E3779B97F4A7C15u;
    z = (z ^ (z >> 30)) * 0xBF58476D1CE4E5B9u;
    z = (z ^ (z >> 27)) * 0x94D049BB133111EBu;
    return z ^ (z >> 31);
}

/* A random pattern with an exponent field from least to greatest. */
static inline uint32_t draw_number(uint32_t least, uint32_t greatest)
{
    uint64_t bits = draw();
    uint32_t field = least + (uint32_t)(bits >> 32) % (greatest - least + 1);
    return ((uint32_t)bits & 0x807FFFFF) | field << 23;
}

#endif
