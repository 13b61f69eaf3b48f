/* Independent implementation, not proved: a filter for other programs. Each line of standard
   input is a call of one running entry after another: "start"; "take" with two cells, each of
   them its bounds and its class; or "amounts" with the length of the load and eight patterns.
   For each a line is printed: the number of the refusal, or 0, and the eleven words of the
   value. All but the length is hexadecimal. Stops with status 1 at a malformed line, or where
   the history and one step from the words give different answers or values. */
#include <inttypes.h>
#include <stdio.h>
#include <string.h>

#include "oracle.h"
#include "records.h"

static struct running history;
static uint32_t shown[RUNNING_WORDS], stepped[RUNNING_WORDS];

static bool read_patterns(uint32_t *patterns, int count)
{
    for (int i = 0; i < count; i++)
        if (scanf("%8" SCNx32, &patterns[i]) != 1)
            return false;
    return true;
}

/* The answers by the history and by one step. */
static bool answer(const char *call, uint32_t answers[2])
{
    uint32_t p[8];
    uint8_t load[32];
    size_t length;
    if (strcmp(call, "start") == 0) {
        answers[0] = oracle_running_start(&history, shown, RUNNING_WORDS);
        answers[1] = oracle_value_start(stepped, RUNNING_WORDS);
    } else if (strcmp(call, "take") == 0 && read_patterns(p, 6)) {
        struct gauged a = {p[0], p[1], p[2]}, b = {p[3], p[4], p[5]};
        answers[0] = oracle_running_take(&history, shown, RUNNING_WORDS, a, b);
        answers[1] = oracle_value_take(stepped, RUNNING_WORDS, a, b);
    } else if (strcmp(call, "amounts") == 0 && scanf("%zu", &length) == 1 && length <= sizeof load && read_patterns(p, 8)) {
        for (int c = 0; c < 8; c++)
            put_number(load + 4 * c, p[c], 4);
        answers[0] = oracle_running_amounts(&history, shown, RUNNING_WORDS, load, length);
        answers[1] = oracle_value_amounts(stepped, RUNNING_WORDS, load, length);
    } else
        return false;
    return true;
}

int main(void)
{
    char call[8];
    uint32_t answers[2];
    while (scanf("%7s", call) == 1) {
        if (!answer(call, answers) || answers[0] != answers[1] || memcmp(shown, stepped, sizeof shown) != 0)
            return 1;
        printf("%" PRIu32, answers[0] / 1000000);
        for (int i = 0; i < RUNNING_WORDS; i++)
            printf(" %08" PRIX32, shown[i]);
        printf("\n");
    }
    return feof(stdin) && fflush(stdout) == 0 && !ferror(stdout) ? 0 : 1;
}
