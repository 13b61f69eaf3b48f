/* Test driver of sheets, not proved: reads stored sheets as text and prints them with the
   library's answers. */
#include "sheet_stored.h"

#include <stdio.h>
#include <stdlib.h>
#include <string.h>

#include "coupling.h"
#include "run.h"
#include "sheet_call.h"

static struct sheet_call call;
static size_t out_length;
static bool has_load;
static uint64_t sheets;

/* A bit for each byte of a record of an amount sheet that starts a field, except byte 0. */
enum { HEAD_FIELDS = 0xDC, CELL_FIELDS = 0x111C };

/* Prints a sheet that was written. */
static void print_records(const uint8_t *bytes, size_t length)
{
    for (size_t i = 0; i < length; i++) {
        bool starts_field = ((i < 16 ? HEAD_FIELDS : CELL_FIELDS) >> i % 16 & 1) != 0;
        printf("%s%02X%s", starts_field ? " " : "", bytes[i], i % 16 == 15 ? "\n" : "");
    }
}

static void print_refusal(uint32_t answer)
{
    printf("refused: %u row %u column %u\n", COUPLING_NUMBER(answer), COUPLING_ROW(answer), COUPLING_COLUMN(answer));
}

/* Writes the matrix that was read, and prints the answer. */
static bool answer_write(uint32_t read)
{
    uint32_t answer;
    call.rows = COUPLING_READ_ROWS(read);
    call.columns = COUPLING_READ_COLUMNS(read);
    call.sheet_length = out_length;
    call.lowers_length = call.uppers_length = CELLS;
    fill_bytes(call.memory.sheet, GUARDED(BYTES));
    bool same = write_alike(&call, &answer);
    printf("write ");
    if (COUPLING_REFUSED(answer))
        print_refusal(answer);
    else {
        printf("%u bytes\n", answer);
        print_records(call.memory.sheet + GUARD, answer);
    }
    return same;
}

/* Prints the answers for the last sheet of the text, if there is one. */
static void answer_sheet(void)
{
    uint32_t answer;
    if (sheets == 0)
        return;
    bool same = has_load ? read_with_alike(&call, &answer) : read_alike(&call, &answer);
    printf("read ");
    if (COUPLING_REFUSED(answer))
        print_refusal(answer);
    else {
        printf("%u by %u\n", COUPLING_READ_ROWS(answer), COUPLING_READ_COLUMNS(answer));
        same = answer_write(answer) && same;
    }
    end_call(sheets, same);
}

static void wrong_form(const char *line)
{
    fprintf(stderr, "a text of stored sheets has no line %s", line);
    exit(2);
}

/* Takes the bytes of a line in hexadecimal behind those that are there; at most as many as
   there is room for. */
static void take_bytes(const char *line, uint8_t *bytes, size_t *length, size_t room)
{
    unsigned byte;
    int used;
    if (line[strspn(line, "0123456789ABCDEF \n")] != 0)
        wrong_form(line);
    for (const char *at = line; sscanf(at, " %2x%n", &byte, &used) == 1; at += used) {
        if (*length == room)
            wrong_form(line);
        bytes[(*length)++] = (uint8_t)byte;
    }
}

/* Takes a line of the text. False at an answer: it and the lines behind it are not
   copied, since the answers are printed anew. */
static bool take_line(const char *line)
{
    if (strncmp(line, "read ", 5) == 0)
        return false;
    if (strncmp(line, "sheet ", 6) == 0) {
        fill_sheet_call(&call);
        call.sheet_length = call.load_length = 0;
        has_load = false;
        sheets++;
    } else if (sscanf(line, "lent %zu %zu %zu", &call.lowers_length, &call.uppers_length, &out_length) == 3) {
        if (call.lowers_length > CELLS || call.uppers_length > CELLS || out_length > BYTES)
            wrong_form(line);
    } else if (strncmp(line, "amounts", 7) == 0) {
        has_load = true;
        take_bytes(line + 7, call.memory.load + GUARD, &call.load_length, LOAD_BYTES);
    } else if (line[0] != '#')
        take_bytes(line, call.memory.sheet + GUARD, &call.sheet_length, BYTES);
    return true;
}

int answer_stored_sheets(void)
{
    char line[200];
    bool taking = true;
    while (fgets(line, sizeof line, stdin) != NULL) {
        bool starts = strncmp(line, "sheet ", 6) == 0;
        if (starts)
            answer_sheet();
        taking = starts || taking;
        taking = taking && take_line(line);
        if (taking)
            fputs(line, stdout);
    }
    answer_sheet();
    return all_the_same() ? 0 : 1;
}
