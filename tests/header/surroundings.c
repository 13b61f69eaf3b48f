/* Tests of the C functions, not proved: every function called in two threads at
   the same time and in each rounding mode gives the same, and changes neither the
   mode nor the exception flags. */
#include "check.h"

#include <fenv.h>
#include <pthread.h>
#include <string.h>

#include "../oracle/records.h"

#define CELLS COUPLING_CELLS_MAX
#define SIZE COUPLING_SIZE_MAX

static uint8_t full[COUPLING_SHEET_MAX], sheets[COUPLING_SHEETS_MAX][COUPLING_SHEET_MAX]; /* each of a train is the full one */
static uint32_t low[CELLS], high[CELLS];                                                  /* what the full sheet is read as */
static const uint8_t load[COUPLING_LOAD_BYTES] = {[29] = 1, [30] = 0x80, [31] = 0x3E};     /* class 7 alone widens, by 1/4 + 2^-17 */

static const uint32_t methods[] = {1, 3, 4, 5, 7};
enum { METHODS = COUNT(methods) };

/* All that one round of calls returns and writes. */
struct answers {
    uint32_t read, read_with, write, multiply[METHODS], train[METHODS], product[METHODS], operations[12], to_midrad, to_bounds, words[4];
    uint8_t sheet[COUPLING_SHEET_MAX], out[METHODS][COUPLING_SHEET_MAX], last[METHODS][COUPLING_SHEET_MAX];
    uint32_t lowers[CELLS], uppers[CELLS], worn_lowers[CELLS], worn_uppers[CELLS], lent[METHODS][6][CELLS];
    uint32_t start, exchange, take[COUPLING_PAIRS_MAX], value[COUPLING_RUNNING_WORDS];
};

static void multiply_all(struct answers *x)
{
    for (int i = 0; i < METHODS; i++) {
        uint32_t(*lent)[CELLS] = x->lent[i];
        x->multiply[i] = coupling_multiply(methods[i], full, sizeof full, full, sizeof full, x->out[i], sizeof x->out[i]);
        x->train[i] = coupling_train(methods[i], COUPLING_SHEETS_MAX, sheets[0], sizeof sheets, x->last[i], sizeof x->last[i]);
        x->product[i] = coupling_product(methods[i], SIZE, SIZE, SIZE, SIZE, low, CELLS, high, CELLS, low, CELLS, high, CELLS,
                                         lent[0], CELLS, lent[1], CELLS, lent[2], CELLS, lent[3], CELLS, lent[4], CELLS, lent[5], CELLS);
    }
}

/* The first cells of the full sheet by themselves; the load comes after half of them. */
static void run_all(struct answers *x)
{
    x->start = coupling_running_start(x->value, COUPLING_RUNNING_WORDS);
    for (uint32_t i = 0; i < COUPLING_PAIRS_MAX; i++) {
        if (i == COUPLING_PAIRS_MAX / 2)
            x->exchange = coupling_running_amounts(x->value, COUPLING_RUNNING_WORDS, load, sizeof load);
        x->take[i] = coupling_running_take(x->value, COUPLING_RUNNING_WORDS, low[i], high[i], i % 8, low[i], high[i], 7 - i % 8);
    }
}

static void call_all(struct answers *x)
{
    const uint32_t a = ONE + 1, b = (MINUS | THREE) + 5; /* no result is exact */
    const uint32_t operations[] = {
        coupling_add_down(a, b), coupling_add_up(a, b), coupling_add_near(a, b),
        coupling_sub_down(a, b), coupling_sub_up(a, b), coupling_sub_near(a, b),
        coupling_mul_down(a, b), coupling_mul_up(a, b), coupling_mul_near(a, b),
        coupling_midpoint_down(a, b), coupling_midpoint_up(a, b), coupling_midpoint_near(a, b),
    };
    memcpy(x->operations, operations, sizeof operations);
    x->read = coupling_read(full, sizeof full, x->lowers, CELLS, x->uppers, CELLS);
    x->read_with = coupling_read_with(load, sizeof load, full, sizeof full, x->worn_lowers, CELLS, x->worn_uppers, CELLS);
    x->write = coupling_write(SIZE, SIZE, low, CELLS, high, CELLS, x->sheet, sizeof x->sheet);
    x->to_midrad = coupling_to_midrad(b, a, &x->words[0], &x->words[1]);
    x->to_bounds = coupling_to_bounds(b, a, &x->words[2], &x->words[3]);
    multiply_all(x);
    run_all(x);
}

/* First in one thread and the mode to nearest: nothing is refused. */
static struct answers first, other[2];

static void call_first(void)
{
    put_full(full);
    for (int i = 0; i < COUPLING_SHEETS_MAX; i++)
        put_full(sheets[i]);
    CHECK(coupling_read(full, sizeof full, low, CELLS, high, CELLS) == 100 * SIZE + SIZE);
    call_all(&first);
    CHECK(first.read == 100 * SIZE + SIZE && first.read_with == first.read && first.write == sizeof full);
    CHECK(first.to_midrad == 0 && first.to_bounds == 0);
    CHECK(first.start == 0 && first.exchange == 0 && first.value[COUPLING_RUNNING_PAIRS] == COUPLING_PAIRS_MAX);
    for (int i = 0; i < COUPLING_PAIRS_MAX; i++)
        CHECK(first.take[i] == 0);
    for (int i = 0; i < METHODS; i++)
        CHECK(first.multiply[i] == sizeof full && first.train[i] == sizeof full && first.product[i] == 0);
    for (int i = 0; i < 12; i++)
        CHECK(!COUPLING_OPERATION_REFUSED(first.operations[i]));
}

static void *run_calls(void *argument)
{
    for (int i = 0; i < 10; i++)
        call_all((struct answers *)argument);
    return NULL;
}

static void test_threads(void)
{
    pthread_t threads[2];
    for (int i = 0; i < 2; i++)
        CHECK(pthread_create(&threads[i], NULL, run_calls, &other[i]) == 0);
    for (int i = 0; i < 2; i++)
        CHECK(pthread_join(threads[i], NULL) == 0);
    for (int i = 0; i < 2; i++)
        CHECK(memcmp(&other[i], &first, sizeof first) == 0);
}

static void test_environment(void)
{
    const int modes[] = {FE_TONEAREST, FE_DOWNWARD, FE_UPWARD, FE_TOWARDZERO}, flags[] = {0, FE_INEXACT | FE_INVALID};
    for (int i = 0; i < 8; i++) {
        memset(&other[0], 0, sizeof other[0]);
        fesetround(modes[i % 4]);
        feclearexcept(FE_ALL_EXCEPT);
        feraiseexcept(flags[i / 4]);
        call_all(&other[0]);
        CHECK(fegetround() == modes[i % 4] && fetestexcept(FE_ALL_EXCEPT) == flags[i / 4]);
        CHECK(memcmp(&other[0], &first, sizeof first) == 0);
    }
    fesetround(FE_TONEAREST);
}

void test_surroundings(void)
{
    call_first();
    test_threads();
    test_environment();
}
