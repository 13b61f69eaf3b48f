/* Benchmarks, not proved: times a start of a running entry and an exchange of its wear
   amounts, by the library and by plain C, in turns. */
#include "timing.h"

#include <string.h>

#include "../tests/oracle/records.h"
#include "running.h"
#include "table.h"

#define WORDS COUPLING_RUNNING_WORDS
#define CALLS 1024 /* calls in a turn */

typedef uint32_t value_call(uint32_t *value);

/* The fixed amounts as a load. */
static uint8_t load[COUPLING_LOAD_BYTES];

static uint32_t our_start(uint32_t *value) { return coupling_running_start(value, WORDS); }
static uint32_t our_exchange(uint32_t *value) { return coupling_running_amounts(value, WORDS, load, sizeof load); }
static uint32_t plain_begin(uint32_t *value) { return plain_start(value, WORDS); }
static uint32_t plain_exchange(uint32_t *value) { return plain_amounts(value, WORDS, load, sizeof load); }

/* The nanoseconds of one call, or LONGEST where it is refused. */
static double time_calls(value_call *call, uint32_t *value)
{
    uint32_t answer = 0;
    double start = now();
    for (int i = 0; i < CALLS; i++)
        answer |= call(value);
    double took = (now() - start) / CALLS;
    return answer == 0 ? took : LONGEST;
}

static bool print_call(const char *name, value_call *ours, value_call *plain, int rounds)
{
    uint32_t our_words[WORDS] = {0}, plain_words[WORDS] = {0};
    double our_least = LONGEST, plain_least = LONGEST;
    for (int round = 0; round < rounds; round++) {
        double our_time = time_calls(ours, our_words), plain_time = time_calls(plain, plain_words);
        if (our_time >= LONGEST || plain_time >= LONGEST || memcmp(our_words, plain_words, sizeof our_words) != 0) {
            printf("%s: refused, or the words differ\n", name);
            return false;
        }
        keep_least(&our_least, our_time);
        keep_least(&plain_least, plain_time);
    }
    printf("| %-19s |", name);
    print_number(our_least);
    print_number(plain_least);
    print_ratio(our_least, plain_least);
    printf("\n");
    return true;
}

bool print_calls(int rounds)
{
    for (uint32_t c = 0; c < 8; c++)
        put_number(load + 4 * c, fixed_amount(c), 4);
    printf("\n| nanoseconds a call  |   ours | plain C | ours / plain C |\n");
    print_rule(3);
    return print_call("start", our_start, plain_begin, rounds) && print_call("exchange of amounts", our_exchange, plain_exchange, rounds);
}
