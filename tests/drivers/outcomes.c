/* Test drivers, not proved: counts the outcomes of the calls of a run. */
#include "outcomes.h"

#include <stdio.h>

#define WIDTH 16    /* of a printed column */

const char *const method_columns[] = {"method 1", "method 3", "method 4", "method 5", "method 7", "other", NULL};

int method_column(uint32_t method)
{
    static const uint32_t known[] = {1, 3, 4, 5, 7};
    int column = 0;
    while (column < 5 && known[column] != method)
        column++;
    return column;
}

void count_outcome(struct table *table, int column, uint32_t code)
{
    uint32_t row = code / 100 % 100, at = code % 100;
    for (size_t i = 0; i < table->count; i++) {
        struct outcome *o = &table->outcomes[i];
        bool fits = code / 10000 == 100 * o->number + o->matrix && (o->met_by >> column & 1) != 0;
        if (fits && row < (o->placed ? PLACES : 1) && at < (o->placed ? PLACES : 1)) {
            o->calls[column]++;
            o->at[row][at] |= 1u << column;
            return;
        }
    }
    table->strange++;
}

/* The least number of calls with this outcome in a column that can have it. */
static unsigned long fewest_calls(const struct outcome *o)
{
    unsigned long fewest = (unsigned long)-1;
    for (int column = 0; column < COLUMNS; column++)
        if ((o->met_by >> column & 1) != 0 && o->calls[column] < fewest)
            fewest = o->calls[column];
    return fewest;
}

static int places_in(const struct outcome *o, int column)
{
    int places = 0;
    for (int place = 0; place < PLACES * PLACES; place++)
        places += (int)(o->at[place / PLACES][place % PLACES] >> column & 1);
    return places;
}

/* The least number of places in a column that can have it. */
static int fewest_places(const struct outcome *o)
{
    int fewest = PLACES * PLACES;
    for (int column = 0; column < COLUMNS; column++)
        if ((o->met_by >> column & 1) != 0 && places_in(o, column) < fewest)
            fewest = places_in(o, column);
    return fewest;
}

static void print_outcome(const struct table *table, const struct outcome *o)
{
    if (o->number != 0)
        printf("%7u %6u", o->number, o->matrix);
    else if (o->matrix != 0)
        printf("   none %6u", o->matrix);
    else
        printf("   none      -");
    for (int column = 0; table->columns[column] != NULL; column++)
        if ((o->met_by >> column & 1) != 0)
            printf(" %*lu", WIDTH, o->calls[column]);
        else
            printf(" %*s", WIDTH, "-");
    if (o->placed)
        printf(" %7d\n", fewest_places(o));
    else
        printf(" %7s\n", "-");
}

void print_table(const struct table *table)
{
    printf("refusal matrix");
    for (int column = 0; table->columns[column] != NULL; column++)
        printf(" %*s", WIDTH, table->columns[column]);
    printf("  places\n");
    for (size_t i = 0; i < table->count; i++)
        print_outcome(table, &table->outcomes[i]);
}

bool met_enough(const struct table *table)
{
    bool enough = table->strange == 0;
    if (table->strange != 0)
        printf("%lu calls have an outcome that the table has not\n", table->strange);
    for (size_t i = 0; i < table->count; i++) {
        const struct outcome *o = &table->outcomes[i];
        if (fewest_calls(o) >= table->least && (!o->placed || fewest_places(o) >= table->least_places))
            continue;
        printf("met too seldom, or at too few places:\n");
        print_outcome(table, o);
        enough = false;
    }
    return enough;
}

void print_summary(const struct table *table)
{
    unsigned long calls = (unsigned long)-1;
    int refusals = 0, places = PLACES * PLACES;
    for (size_t i = 0; i < table->count; i++) {
        const struct outcome *o = &table->outcomes[i];
        if (o->number == 0)
            continue;
        refusals++;
        if (fewest_calls(o) < calls)
            calls = fewest_calls(o);
        if (o->placed && fewest_places(o) < places)
            places = fewest_places(o);
    }
    printf("; %d refusals, each met %lu times or more", refusals, calls);
    if (table->by != NULL)
        printf(" by each %s", table->by);
    if (places < PLACES * PLACES && table->places != NULL)
        printf(" and at %d %s or more", places, table->places);
    else if (places < PLACES * PLACES)
        printf(", those of a cell at %d places or more", places);
}
