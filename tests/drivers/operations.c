/* Test driver, not proved: compares the library's twelve operations with test vectors
   from standard input, one a line, as vector.h describes.

     operations [LEAST]

   Prints the first vector that differs, if any, with the library's answer; in the last
   line how many vectors there were, how many differ, and which refusals occurred. A
   malformed or incomplete line counts as a difference. Status 1 if a vector differs, or
   if a refusal occurred fewer than LEAST times in an operation. */
#include <inttypes.h>
#include <stdio.h>
#include <stdlib.h>
#include <string.h>

#include "coupling.h"
#include "run.h"
#include "vector.h"

typedef uint32_t operation_call(uint32_t a, uint32_t b);

/* In the order of OPERATION_LETTERS and DIRECTION_LETTERS. */
static operation_call *const calls[4][3] = {
    {coupling_add_down, coupling_add_up, coupling_add_near},
    {coupling_sub_down, coupling_sub_up, coupling_sub_near},
    {coupling_mul_down, coupling_mul_up, coupling_mul_near},
    {coupling_midpoint_down, coupling_midpoint_up, coupling_midpoint_near},
};

static const char *const columns[] = {
    "add_down", "add_up", "add_near", "sub_down", "sub_up", "sub_near",
    "mul_down", "mul_up", "mul_near", "midpoint_down", "midpoint_up", "midpoint_near", NULL,
};

/* A midpoint never overflows, so refusal 5 is for the other nine operations. */
static struct outcome outcomes[] = {
    {.number = 0, .met_by = 0xFFF}, {.number = 3, .met_by = 0xFFF}, {.number = 5, .met_by = 0x1FF},
};

static struct table table = {.columns = columns, .by = "operation", .outcomes = outcomes, .count = 3};

/* Takes operation, direction and operands from a line; false if it is malformed. */
static bool parse(const char *line, int *operation, int *direction, uint32_t *a, uint32_t *b)
{
    static const char capitals[] = "0123456789ABCDEF";
    if (strlen(line) != VECTOR_LENGTH || line[VECTOR_LENGTH - 1] != '\n' || line[2] != ' ' || line[11] != ' ' || line[20] != ' ')
        return false;
    const char *x = strchr(OPERATION_LETTERS, line[0]), *y = strchr(DIRECTION_LETTERS, line[1]);
    if (x == NULL || y == NULL || strspn(line + 3, capitals) != 8 || strspn(line + 12, capitals) != 8)
        return false;
    *operation = (int)(x - OPERATION_LETTERS);
    *direction = (int)(y - DIRECTION_LETTERS);
    *a = (uint32_t)strtoul(line + 3, NULL, 16);
    *b = (uint32_t)strtoul(line + 12, NULL, 16);
    return true;
}

/* The result as it is written at the end of a line. */
static void result_text(uint32_t answer, char *text)
{
    if (answer == COUPLING_INFINITY + COUPLING_NOT_FINITE || answer == COUPLING_INFINITY + COUPLING_OVERFLOW)
        sprintf(text, "refuse %" PRIu32 "\n", COUPLING_OPERATION_NUMBER(answer));
    else
        sprintf(text, "%08" PRIX32 "\n", answer);
}

/* Whether the result in the line is exactly the library's. */
static bool holds(const char *line)
{
    int operation, direction;
    uint32_t a, b;
    char text[16];
    if (!parse(line, &operation, &direction, &a, &b)) {
        if (all_the_same())
            printf("vector %.*s is malformed\n", (int)strcspn(line, "\n"), line);
        return false;
    }
    uint32_t answer = calls[operation][direction](a, b);
    uint32_t number = COUPLING_OPERATION_REFUSED(answer) ? COUPLING_OPERATION_NUMBER(answer) : 0;
    count_outcome(&table, 3 * operation + direction, 1000000 * number);
    result_text(answer, text);
    bool same = strcmp(line + RESULT_AT, text) == 0;
    if (!same && all_the_same())
        printf("vector %.*s library %s", VECTOR_LENGTH - 1, line, text);
    return same;
}

/* Reads a line with its line feed. The rest of a line that is too long is skipped, and
   what was read has no line feed. False at the end of the input. */
static bool next_line(char *line, int room)
{
    if (fgets(line, room, stdin) == NULL)
        return false;
    if (strchr(line, '\n') == NULL)
        for (int c = getchar(); c != '\n' && c != EOF;)
            c = getchar();
    return true;
}

int main(int argc, char **argv)
{
    char line[2 * VECTOR_LENGTH];
    table.least = argc > 1 ? number_of(argv[1]) : 0;
    for (uint64_t index = 0; next_line(line, sizeof line); index++)
        end_call(index, holds(line));
    return end_run("vectors", &table);
}
