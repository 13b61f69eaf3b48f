/* Test driver of running entries, not proved: random histories. Most cells are moderate, so
   that many histories come to 32 pairs; faults are put between, one or several in a call. */
#include "running_draw.h"

#include "amounts_draw.h"
#include "draw.h"
#include "gauged_draw.h"
#include "numbers.h"
#include "records.h"
#include "wear_draw.h"

#define MOST 40         /* calls of a history */
#define NEVER 1000000   /* one of so many calls: hardly any */
#define PAIRS 32        /* the most pairs of a running entry */

/* Of a moderate history, products are below 2^70. */
static void draw_kinds_of(const struct history *history, struct kind *a, struct kind *b)
{
    do
        draw_kinds(a, b);
    while (history->moderate && a->greatest + b->greatest > 320);
}

void draw_history(struct history *history)
{
    bool foreign = one_in(4), few = one_in(2);
    history->foreign = foreign;
    history->moderate = !one_in(5);
    history->worn = !one_in(4);
    draw_kinds_of(history, &history->a, &history->b);
    history->calls = one_in(8) ? from_to(1, MOST) : MOST;
    history->faulty = few && !foreign ? 30 : 2;
    history->exchanges = foreign ? 5 : one_in(4) ? NEVER : 10;
    history->restarts = foreign || one_in(8) ? 30 : NEVER;
    history->calm = few || foreign ? 0 : (uint32_t)from_to(0, PAIRS - 1);
    history->limit = one_in(4) ? (uint32_t)from_to(0, PAIRS - 1) : PAIRS;
}

/* One cell or both. Where it is one, the other is often a zero, so that no product is too
   large and the cell alone decides. */
static void spoil_pair(const struct history *history, const uint32_t *amounts, struct running_call *call)
{
    int which = from_to(0, 2);
    const struct gauged zero = {0, draw_sign(0), 0};
    if (one_in(2))
        *(which == 0 ? &call->b : &call->a) = zero;
    if (which != 1)
        spoil_gauged(history->a, amounts, &call->a);
    if (which != 0)
        spoil_gauged(history->b, amounts, &call->b);
}

static void draw_cells(const struct history *history, const uint32_t *value, struct running_call *call)
{
    struct kind a = history->a, b = history->b;
    if (one_in(12))
        draw_kinds_of(history, &a, &b);
    draw_gauged(a, history->worn, &call->a);
    draw_gauged(b, history->worn, &call->b);
    if (value[2] >= history->limit && one_in(3))
        draw_pair_to_limit(value, &call->a, &call->b);
    if (value[2] >= history->calm && one_in(history->faulty))
        spoil_pair(history, value + 3, call);
}

static size_t draw_any_load(const struct history *history, uint8_t *load)
{
    if (one_in(2))
        return draw_moderate_load(load);
    size_t length = draw_load(load);
    bool accepted = oracle_check_amounts(load, length) == 0;
    return accepted && history->moderate ? draw_moderate_load(load) : length;
}

static size_t draw_short_length(void)
{
    int any = from_to(0, RUNNING_WORDS - 1);
    return (size_t)(one_in(2) ? RUNNING_WORDS - 1 : any);
}

void draw_next_call(const struct history *history, const uint32_t *value, struct running_call *call)
{
    bool restarts = one_in(history->restarts), exchanges = one_in(history->exchanges), shortened = one_in(40);
    call->action = restarts || (shortened && one_in(3)) ? START : exchanges || (shortened && one_in(3)) ? EXCHANGE : TAKE;
    call->length = (size_t)(one_in(2) ? RUNNING_WORDS : from_to(RUNNING_WORDS, VALUE_WORDS));
    if (shortened)
        call->length = draw_short_length();
    fill_bytes(call->load, GUARDED(LOAD_BYTES));
    if (call->action == EXCHANGE)
        call->load_length = draw_any_load(history, call->load + GUARD);
    else if (call->action == TAKE)
        draw_cells(history, value, call);
}

static void draw_foreign_sums(uint32_t *value)
{
    const struct kind kind = {100, 140};
    int which = from_to(0, 1);
    draw_cell(kind, &value[0], &value[1]);
    switch (from_to(0, 9)) {
    case 0: value[which] = draw_not_finite(); break;
    case 1: value[which] = SIGN; break;
    case 2: value[0] = value[1] = SIGN; break;
    case 3: draw_crossed(kind, &value[0], &value[1]); break;
    case 4: value[which] = draw_sign(MAX); break;
    case 5: value[which] = draw_pattern(); break;
    }
}

static uint32_t draw_foreign_count(void)
{
    uint32_t any = any_bits();
    switch (from_to(0, 60)) {
    case 0:  return PAIRS;
    case 1:  return PAIRS + 1;
    case 2:  return any;
    case 3:  return 1u << any % 32;
    case 4:  return UINT32_MAX;
    default: return any % PAIRS;
    }
}

static uint32_t draw_foreign_amount(void)
{
    switch (from_to(0, 4)) {
    case 0:  return draw_wear(AMOUNT_SHEET, false);
    case 1:  return SIGN | draw_wear(AMOUNT_SHEET, true);
    case 2:  return MAX;
    default: return draw_wrong_wear(AMOUNT_SHEET);
    }
}

void draw_foreign_value(uint32_t *value)
{
    bool any_words = one_in(20);
    draw_foreign_sums(value);
    value[2] = draw_foreign_count();
    for (uint32_t c = 0; c < 8; c++)
        value[3 + c] = one_in(3) ? draw_foreign_amount() : fixed_amount(c);
    for (int i = 0; any_words && i < RUNNING_WORDS; i++)
        value[i] = any_bits();
}
