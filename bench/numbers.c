/* Benchmarks, not proved: times the twelve operations: the library's, the same
   algorithm in plain C, and the machine's own, in turns on the same pairs. Each call
   is independent of the others and made through a function pointer.

   numbers [rounds]

   Runs ten times as many rounds, since a round is short, and takes the least time.
   Stops with status 1 where two results differ. */
#include "timing.h"

#include <fenv.h>
#include <stdbool.h>

#include "bits.h"
#include "coupling.h"
#include "draw.h"
#include "plain.h"
#include "table.h"

#define PAIRS 4096

typedef uint32_t operation(uint32_t a, uint32_t b);

static uint32_t left[PAIRS], right[PAIRS];

/* The machine's operations, in the rounding mode that is set. A midpoint is computed
   in binary64 and then rounded to binary32. Where the binary64 sum is not exact, the
   midpoint is close to a binary32 number, far from every tie, so that the second
   rounding does no harm. */
static uint32_t machine_add(uint32_t a, uint32_t b)
{
    return pattern_of(value_of(a) + value_of(b));
}

static uint32_t machine_sub(uint32_t a, uint32_t b)
{
    return pattern_of(value_of(a) - value_of(b));
}

static uint32_t machine_mul(uint32_t a, uint32_t b)
{
    return pattern_of(value_of(a) * value_of(b));
}

static uint32_t machine_midpoint(uint32_t a, uint32_t b)
{
    return pattern_of((float)(((double)value_of(a) + (double)value_of(b)) * 0.5));
}

static const struct row {
    const char *name;
    int mode;
    operation *ours, *plain, *machine;
} rows[] = {
    {"add_down", FE_DOWNWARD, coupling_add_down, plain_add_down, machine_add},
    {"add_up", FE_UPWARD, coupling_add_up, plain_add_up, machine_add},
    {"add_near", FE_TONEAREST, coupling_add_near, plain_add_near, machine_add},
    {"sub_down", FE_DOWNWARD, coupling_sub_down, plain_sub_down, machine_sub},
    {"sub_up", FE_UPWARD, coupling_sub_up, plain_sub_up, machine_sub},
    {"sub_near", FE_TONEAREST, coupling_sub_near, plain_sub_near, machine_sub},
    {"mul_down", FE_DOWNWARD, coupling_mul_down, plain_mul_down, machine_mul},
    {"mul_up", FE_UPWARD, coupling_mul_up, plain_mul_up, machine_mul},
    {"mul_near", FE_TONEAREST, coupling_mul_near, plain_mul_near, machine_mul},
    {"midpoint_down", FE_DOWNWARD, coupling_midpoint_down, plain_midpoint_down, machine_midpoint},
    {"midpoint_up", FE_UPWARD, coupling_midpoint_up, plain_midpoint_up, machine_midpoint},
    {"midpoint_near", FE_TONEAREST, coupling_midpoint_near, plain_midpoint_near, machine_midpoint},
};

#define ROWS (sizeof rows / sizeof rows[0])

/* The machine's result as the library returns it: 0 for both zeros, and refusal 5 for
   an infinity. */
static uint32_t coded(uint32_t pattern)
{
    uint32_t magnitude = pattern & 0x7FFFFFFF;
    if (magnitude == 0)
        return 0;
    return magnitude == COUPLING_INFINITY ? COUPLING_INFINITY + COUPLING_OVERFLOW : pattern;
}

static int differences(const struct row *row)
{
    int count = 0;
    fesetround(row->mode);
    for (int i = 0; i < PAIRS; i++) {
        uint32_t ours = row->ours(left[i], right[i]);
        count += ours != row->plain(left[i], right[i])
            || ours != coded(row->machine(left[i], right[i]));
    }
    fesetround(FE_TONEAREST);
    return count;
}

static volatile uint32_t sink;

/* The mean nanoseconds of one call over all pairs. */
static double time_calls(operation *call)
{
    uint32_t sum = 0;
    double start = now();
    for (int i = 0; i < PAIRS; i++)
        sum += call(left[i], right[i]);
    double took = (now() - start) / PAIRS;
    sink = sum;
    return took;
}

struct times {
    double ours, plain, machine;
};

static void time_row(const struct row *row, struct times *least)
{
    keep_least(&least->ours, time_calls(row->ours));
    keep_least(&least->plain, time_calls(row->plain));
    fesetround(row->mode);
    keep_least(&least->machine, time_calls(row->machine));
    fesetround(FE_TONEAREST);
}

static void print_row(const struct row *row, const struct times *least)
{
    printf("| %-13s |", row->name);
    print_number(least->ours);
    print_number(least->plain);
    print_number(least->machine);
    print_ratio(least->ours, least->plain);
    print_ratio(least->ours, least->machine);
    printf("\n");
}

static bool compare(uint32_t least_field, uint32_t greatest_field, const char *title, int rounds)
{
    struct times least[ROWS];
    for (int i = 0; i < PAIRS; i++) {
        left[i] = draw_number(least_field, greatest_field);
        right[i] = draw_number(least_field, greatest_field);
    }
    for (size_t i = 0; i < ROWS; i++) {
        least[i] = (struct times){LONGEST, LONGEST, LONGEST};
        int count = differences(&rows[i]);
        if (count != 0) {
            printf("%s: %d of %d answers differ\n", rows[i].name, count, PAIRS);
            return false;
        }
    }
    for (int round = 0; round < rounds; round++)
        for (size_t i = 0; i < ROWS; i++)
            time_row(&rows[i], &least[i]);
    printf("\n%s\n\n| nanoseconds   |   ours | plain C | machine | ours / plain C | ours / machine |\n", title);
    print_rule(5);
    for (size_t i = 0; i < ROWS; i++)
        print_row(&rows[i], &least[i]);
    return true;
}

int main(int argc, char **argv)
{
    int rounds = 10 * rounds_given(argc, argv);
    printf("\n## Operations\n\nNanoseconds a call, least of %d rounds over %d pairs, in turns.\n", rounds, PAIRS);
    return compare(122, 132, "numbers of like size, 2^-5 to 2^6", rounds)
        && compare(0, 254, "any finite patterns", rounds) ? 0 : 1;
}
