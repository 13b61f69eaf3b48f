/* Test drivers, not proved: the splitmix64 generator, and random choices by it. */
#include "draw.h"

static uint64_t state;

static uint64_t next(void)
{
    uint64_t z = state += 0x9E3779B97F4A7C15u;
    z = (z ^ (z >> 30)) * 0xBF58476D1CE4E5B9u;
    z = (z ^ (z >> 27)) * 0x94D049BB133111EBu;
    return z ^ (z >> 31);
}

void start_draws(uint64_t seed, uint64_t index)
{
    state = seed;
    state = next() ^ index * 0xD1342543DE82EF95u;
}

uint32_t any_bits(void)
{
    return (uint32_t)(next() >> 32);
}

int from_to(int least, int greatest)
{
    return least + (int)(any_bits() % ((uint32_t)(greatest - least) + 1));
}

bool one_in(int n)
{
    return from_to(1, n) == 1;
}
