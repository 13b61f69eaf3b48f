/* Test driver, not proved: compares the library's running entry with that of the independent
   implementation, after each call of a history, in the answer, in every word of the value and
   in every byte of the load. What is expected of a value that was made by the calls follows
   from the list of all its pairs; of a foreign value, which was not, from its words.

     running SEED COUNT [FIRST]

   Makes COUNT random histories. Status 1 if one differs, or if an outcome occurred too seldom,
   or after too few numbers of pairs. */
#include <stdio.h>
#include <string.h>

#include "coupling.h"
#include "draw.h"
#include "run.h"
#include "running_draw.h"

/* A start; a pair of a made value, by whether amounts were exchanged before, and its refusals by
   where they are found; an exchange. Then those of foreign values. */
static const char *const columns[] = {"start", "pair", "pair, exchanged", "first cell", "second cell", "sums", "exchange",
                                      "foreign pair", "foreign first", "foreign second", "foreign sums", "foreign exchange", NULL};
enum { BEGIN, PAIR, PAIR_EXCHANGED, FIRST, SECOND, SUMS, LOAD, FOREIGN_PAIR, FOREIGN_FIRST, FOREIGN_SECOND, FOREIGN_SUMS, FOREIGN_LOAD };

enum {
    PAIRS = 1 << PAIR | 1 << PAIR_EXCHANGED | 1 << FOREIGN_PAIR,
    BOTH_CELLS = 1 << FIRST | 1 << SECOND | 1 << FOREIGN_FIRST | 1 << FOREIGN_SECOND,
    LOADS = 1 << LOAD | 1 << FOREIGN_LOAD,
    ANY_CALL = 1 << BEGIN | PAIRS | LOADS,
};

/* The place of an outcome is the number of pairs before the call, which is always 32 for 1. */
static struct outcome outcomes[] = {
    {.number = 0, .met_by = ANY_CALL, .placed = true},
    {.number = 2, .met_by = ANY_CALL, .placed = true},
    {.number = 1, .met_by = PAIRS},
    {.number = 10, .met_by = BOTH_CELLS, .placed = true},
    {.number = 3, .met_by = BOTH_CELLS | 1 << FOREIGN_SUMS | LOADS, .placed = true},
    {.number = 4, .met_by = BOTH_CELLS | 1 << FOREIGN_SUMS, .placed = true},
    {.number = 5, .met_by = BOTH_CELLS | 1 << SUMS | 1 << FOREIGN_SUMS, .placed = true},
    {.number = 6, .met_by = LOADS, .placed = true},
    {.number = 13, .met_by = LOADS, .placed = true},
};

static struct table table = {
    .columns = columns, .by = "check", .least = 100, .least_places = 28, .places = "numbers of pairs",
    .outcomes = outcomes, .count = sizeof outcomes / sizeof outcomes[0],
};

static struct entries entries;
static struct running_call call;
static bool exchanged;      /* the amounts of the made value are not those of its beginning */

/* The column of a pair with this answer, where these were the words before. */
static int pair_column(const uint32_t *before, uint32_t answer)
{
    uint32_t lo, hi, number = COUPLING_NUMBER(answer);
    if (number <= COUPLING_SHORT)
        return exchanged ? PAIR_EXCHANGED : PAIR;
    if (oracle_gauge(before + 3, call.a, &lo, &hi) != 0)
        return FIRST;
    return oracle_gauge(before + 3, call.b, &lo, &hi) != 0 ? SECOND : SUMS;
}

/* The column of the same outcome of a foreign value. */
static int foreign_column(int column)
{
    return column == BEGIN ? BEGIN : column < FIRST ? FOREIGN_PAIR : column + FOREIGN_FIRST - FIRST;
}

static void count_call(const uint32_t *before, bool foreign, uint32_t answer)
{
    uint32_t pairs = before[2] < PLACES ? before[2] : PLACES - 1;
    int column = call.action == START ? BEGIN : call.action == EXCHANGE ? LOAD : pair_column(before, answer);
    if (answer == 0 && call.action != TAKE)
        exchanged = call.action == EXCHANGE;
    if (COUPLING_NUMBER(answer) != COUPLING_SIZE)
        answer += 100 * pairs;
    count_outcome(&table, foreign ? foreign_column(column) : column, answer);
}

/* Makes the call that was drawn. */
static bool agree(bool foreign)
{
    uint32_t before[RUNNING_WORDS], answer;
    memcpy(before, entries.expected + GUARD, sizeof before);
    bool same = running_alike(&entries, &call, foreign, &answer);
    count_call(before, foreign, answer);
    return same;
}

/* A value is made from a start on. A foreign one is put in its place before most calls. */
static bool agree_in_history(void)
{
    struct history history;
    uint32_t words[RUNNING_WORDS];
    draw_history(&history);
    fill_entries(&entries);
    call = (struct running_call){.action = START, .length = RUNNING_WORDS};
    bool same = agree(false);
    for (int i = 1; i < history.calls && same; i++) {
        if (history.foreign && (i == 1 || !one_in(3))) {
            draw_foreign_value(words);
            put_foreign_value(&entries, words);
        }
        draw_next_call(&history, entries.expected + GUARD, &call);
        same = agree(history.foreign);
        if (!same && all_the_same())
            printf("after %d calls\n", i);
    }
    return same;
}

int main(int argc, char **argv)
{
    struct run run = run_of(argc - 1, argv + 1);
    for (uint64_t index = run.first; index < run.first + run.count; index++) {
        start_draws(run.seed, index);
        end_call(index, agree_in_history());
    }
    return end_run("histories of running entries", &table);
}
