/* Test driver of products, not proved: makes the same call to the library and to the
   independent implementation, and compares the two answers. */
#include "product_call.h"

#include <string.h>

#include "run.h"

static const char *const names[SLICES] = {
    "a_lowers", "a_uppers", "b_lowers", "b_uppers", "a_mids", "a_rads", "b_mids", "b_rads", "lowers", "uppers",
};

uint32_t *cell(struct call *call, enum slice slice, size_t at)
{
    return &call->memory[slice][GUARD + at];
}

uint32_t left_in(const struct answer *answer, enum slice slice, size_t at)
{
    return answer->memory[slice][GUARD + at];
}

size_t cells_of(const struct call *call, enum slice slice)
{
    switch (slice) {
    case AL: case AU: case MA: case RA: return call->a_rows * call->a_columns;
    case BL: case BU: case MB: case RB: return call->b_rows * call->b_columns;
    default: return call->a_rows * call->b_columns;
    }
}

void prepare(struct call *call, uint32_t method, size_t m, size_t k, size_t n)
{
    call->method = method;
    call->a_rows = m;
    call->a_columns = call->b_rows = k;
    call->b_columns = n;
    for (int s = 0; s < SLICES; s++)
        call->lengths[s] = cells_of(call, (enum slice)s);
    fill_words(call->memory[0], SLICES * GUARDED(CELLS));
}

#define SLICE(s) answer->memory[s] + GUARD, call->lengths[s]
#define TEN_SLICES SLICE(AL), SLICE(AU), SLICE(BL), SLICE(BU), SLICE(MA), SLICE(RA), \
                   SLICE(MB), SLICE(RB), SLICE(CL), SLICE(CU)

void ask_library(const struct call *call, struct answer *answer)
{
    memcpy(answer->memory, call->memory, sizeof answer->memory);
    answer->code = coupling_product(call->method, call->a_rows, call->a_columns,
                                    call->b_rows, call->b_columns, TEN_SLICES);
}

/* The oracle's product takes one inner size. Where A's columns and B's rows differ, its
   checks of the method and of the four sizes are called in its place. */
static struct refusal refusal_of(const struct call *call, struct answer *answer)
{
    if (call->a_columns == call->b_rows)
        return oracle_product(call->method, call->a_rows, call->a_columns, call->b_columns, TEN_SLICES);
    struct refusal refusal = oracle_product(call->method, 0, 0, 0, TEN_SLICES);
    if (refusal.number == 9)
        return refusal;
    return oracle_check_sizes(call->a_rows, call->a_columns, call->b_rows, call->b_columns);
}

void ask_oracle(const struct call *call, struct answer *answer)
{
    memcpy(answer->memory, call->memory, sizeof answer->memory);
    answer->code = code_of(refusal_of(call, answer));
}

bool same_answer(const struct answer *library, const struct answer *oracle)
{
    bool same = same_number("answer", library->code, oracle->code);
    for (int s = 0; s < SLICES; s++)
        same = same_words(names[s], library->memory[s], oracle->memory[s], GUARDED(CELLS)) && same;
    return same;
}
