/* Test driver, not proved: compares the output of the program print_product with that
   of the independent implementation.

     printed PROGRAM SEED COUNT [FIRST]   COUNT random inputs
     printed PROGRAM stored FILE..        stored inputs NAME.in, each with its expected
                                          output in NAME.out

   Status 1 if an output differs, or if a refusal occurred too seldom. */
#include <inttypes.h>
#include <stdio.h>
#include <string.h>

#include "child.h"
#include "draw.h"
#include "job_draw.h"
#include "run.h"

static const char *const columns[] = {"product 1", "product 3", "product 4", "product 5", "product 7", "refused", NULL};
enum { PRODUCTS = METHODS, REFUSED_COLUMN = 5, REFUSED = 1 << REFUSED_COLUMN };

static struct outcome outcomes[] = {
    {.number = 0, .met_by = PRODUCTS}, {.number = 9, .met_by = REFUSED},
    SHEET_REFUSALS(1, REFUSED), SHEET_REFUSALS(2, REFUSED),
    {.number = 5, .matrix = 3, .met_by = REFUSED, .placed = true},
};

static struct table table = {
    .columns = columns, .least = 1, .least_places = 1,
    .outcomes = outcomes, .count = sizeof outcomes / sizeof outcomes[0],
};

static uint8_t input[1 + 2 * BYTES];
static char printed[TEXT_ROOM], expected[TEXT_ROOM], stored[TEXT_ROOM];

static bool same_text(const char *whose, const char *text, size_t length, size_t expected_length)
{
    bool same = length == expected_length && memcmp(text, expected, length) == 0;
    if (!same && all_the_same())
        printf("%s: %zu bytes, %.50s\nexpected: %zu bytes, %.50s\n", whose, length, text, expected_length, expected);
    return same;
}

/* Puts the output of the independent implementation into `expected`; its length. */
static size_t expect(size_t length)
{
    size_t text = oracle_print(input, length, expected, TEXT_ROOM - 1);
    expected[text] = 0;
    return text;
}

/* Counts the outcome in the expected text. */
static void count_text(void)
{
    struct refusal r = {0, 0, 0, 0};
    uint32_t method = 0;
    if (sscanf(expected, "product %" SCNu32, &method) == 1)
        count_outcome(&table, method_column(method), 0);
    else if (sscanf(expected, "refused %" SCNu32 " %" SCNu32 " %" SCNu32 " %" SCNu32,
                    &r.number, &r.matrix, &r.row, &r.column) == 4)
        count_outcome(&table, REFUSED_COLUMN, code_of(r));
}

/* Draws the digit of the method, or now and then any byte, and the two sheets. */
static size_t draw_input(void)
{
    static struct job job;
    draw_job(&job);
    input[0] = (uint8_t)(one_in(30) ? any_bits() : '0' + job.method);
    memcpy(input + 1, job.a + GUARD, job.a_length);
    memcpy(input + 1 + job.a_length, job.b + GUARD, job.b_length);
    return 1 + job.a_length + job.b_length;
}

static int compare_random(const char *program, struct run run)
{
    for (uint64_t index = run.first; index < run.first + run.count; index++) {
        start_draws(run.seed, index);
        size_t length = draw_input(), text = expect(length);
        end_call(index, same_text("program", printed, run_program(program, input, length, printed), text));
        count_text();
    }
    return end_run("inputs", &table);
}

/* Reads NAME.out for the path NAME.in. */
static size_t read_out(const char *path, char *text)
{
    char name[4096];
    int stem = (int)strlen(path) - 3;
    snprintf(name, sizeof name, "%.*s.out", stem < 0 ? 0 : stem, path);
    size_t length = read_file(name, text, TEXT_ROOM - 1);
    text[length] = 0;
    return length;
}

static int compare_stored(const char *program, int files, char **paths)
{
    for (int i = 0; i < files; i++) {
        size_t length = read_file(paths[i], input, sizeof input), text = expect(length);
        bool same = same_text("program", printed, run_program(program, input, length, printed), text);
        same = same_text("stored", stored, read_out(paths[i], stored), text) && same;
        if (!same)
            printf("%s\n", paths[i]);
        end_call((uint64_t)i, same);
    }
    if (!all_the_same())
        return 1;
    printf("%d inputs, printed as they are stored\n", files);
    return 0;
}

int main(int argc, char **argv)
{
    if (argc > 3 && strcmp(argv[2], "stored") == 0)
        return compare_stored(argv[1], argc - 3, argv + 3);
    return compare_random(argv[1], run_of(argc - 2, argv + 2));
}
