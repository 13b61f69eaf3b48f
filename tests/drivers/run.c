/* Test drivers, not proved: the arguments, the count of calls, and the summary of a run. */
#include "run.h"

#include <inttypes.h>
#include <stdio.h>
#include <stdlib.h>
#include <string.h>

static uint64_t calls, differences;
static bool part;   /* FIRST was given: only a part of a run, so no table is printed */

uint64_t number_of(const char *word)
{
    size_t digits = strspn(word, "0123456789");
    if (digits == 0 || word[digits] != 0) {
        fprintf(stderr, "%s is no number\n", word);
        exit(2);
    }
    return strtoull(word, NULL, 10);
}

struct run run_of(int words, char **word)
{
    if (words < 2 || words > 3) {
        fprintf(stderr, "usage: SEED COUNT [FIRST]\n");
        exit(2);
    }
    part = words == 3;
    struct run run = {number_of(word[0]), number_of(word[1]), part ? number_of(word[2]) : 0};
    return run;
}

uint32_t code_of(struct refusal refusal)
{
    return 1000000 * refusal.number + 10000 * refusal.matrix + 100 * refusal.row + refusal.column;
}

bool all_the_same(void)
{
    return differences == 0;
}

void end_call(uint64_t index, bool same)
{
    calls++;
    if (same)
        return;
    if (all_the_same())
        printf("the call with index %" PRIu64 " is the first that differs\n", index);
    differences++;
}

int end_run(const char *name, const struct table *table)
{
    if (!part)
        print_table(table);
    bool enough = part || met_enough(table);
    printf("%" PRIu64 " %s, %" PRIu64 " differences", calls, name, differences);
    if (!part)
        print_summary(table);
    printf("\n");
    return differences == 0 && enough ? 0 : 1;
}
