/* Test driver of running entries, not proved: makes the same call to the library and to the
   independent implementation. */
#include "running_call.h"

#include <inttypes.h>
#include <stdio.h>
#include <string.h>

#include "coupling.h"
#include "run.h"

void fill_entries(struct entries *entries)
{
    fill_words(entries->library, GUARDED(VALUE_WORDS));
    fill_words(entries->expected, GUARDED(VALUE_WORDS));
    fill_words(entries->stepped, GUARDED(VALUE_WORDS));
}

void put_foreign_value(struct entries *entries, const uint32_t *words)
{
    memcpy(entries->library + GUARD, words, RUNNING_WORDS * sizeof *words);
    memcpy(entries->expected + GUARD, words, RUNNING_WORDS * sizeof *words);
    memcpy(entries->stepped + GUARD, words, RUNNING_WORDS * sizeof *words);
}

static uint32_t ask_library(const struct running_call *call, uint32_t *value, const uint8_t *load)
{
    switch (call->action) {
    case START: return coupling_running_start(value, call->length);
    case TAKE:  return coupling_running_take(value, call->length, call->a.lower, call->a.upper, call->a.wear_class,
                                             call->b.lower, call->b.upper, call->b.wear_class);
    default:    return coupling_running_amounts(value, call->length, load, call->load_length);
    }
}

static uint32_t ask_history(const struct running_call *call, struct running *history, uint32_t *value)
{
    switch (call->action) {
    case START: return oracle_running_start(history, value, call->length);
    case TAKE:  return oracle_running_take(history, value, call->length, call->a, call->b);
    default:    return oracle_running_amounts(history, value, call->length, call->load + GUARD, call->load_length);
    }
}

static uint32_t ask_words(const struct running_call *call, uint32_t *value)
{
    switch (call->action) {
    case START: return oracle_value_start(value, call->length);
    case TAKE:  return oracle_value_take(value, call->length, call->a, call->b);
    default:    return oracle_value_amounts(value, call->length, call->load + GUARD, call->load_length);
    }
}

static void print_cell(struct gauged cell)
{
    printf(", [%08" PRIX32 ", %08" PRIX32 "] of class %" PRIu32, cell.lower, cell.upper, cell.wear_class);
}

/* Prints the first call that differs. */
static void print_call(const struct running_call *call, uint32_t pairs)
{
    static const char *const actions[] = {"a start", "a pair", "an exchange"};
    if (!all_the_same())
        return;
    printf("in %s on %zu words with %" PRIu32 " pairs", actions[call->action], call->length, pairs);
    if (call->action == TAKE) {
        print_cell(call->a);
        print_cell(call->b);
    } else if (call->action == EXCHANGE)
        printf(", a load of %zu bytes", call->load_length);
    printf("\n");
}

bool running_alike(struct entries *entries, const struct running_call *call, bool foreign, uint32_t *answer)
{
    uint8_t load[GUARDED(LOAD_BYTES)];
    const size_t words = GUARDED(VALUE_WORDS);
    uint32_t pairs = entries->expected[GUARD + 2];
    memcpy(load, call->load, sizeof load);
    uint32_t given = ask_library(call, entries->library + GUARD, load + GUARD);
    uint32_t by_words = ask_words(call, entries->stepped + GUARD);
    *answer = by_words;
    if (foreign)
        memcpy(entries->expected, entries->stepped, sizeof entries->expected);
    else
        *answer = ask_history(call, &entries->history, entries->expected + GUARD);
    bool same = same_number("answer", given, *answer);
    same = same_words("value", entries->library, entries->expected, words) && same;
    same = same_bytes("load", load, call->load, sizeof load) && same;
    if (by_words != *answer || memcmp(entries->stepped, entries->expected, sizeof entries->expected) != 0) {
        if (all_the_same())
            printf("history and words of the independent implementation differ\n");
        same = false;
    }
    if (!same)
        print_call(call, pairs);
    return same;
}
