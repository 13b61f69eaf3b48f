/* Benchmarks, not proved: makes calls that are refused, some on words that no call made,
   to the library and to the peers of its running entry, and compares the answers and all
   words. */
#include <stdio.h>
#include <string.h>

#include "running.h"

#define WORDS COUPLING_RUNNING_WORDS
#define ONE 0x3F800000u
#define TWO 0x40000000u
#define MINUS 0x80000000u
#define MOST COUPLING_LARGEST
#define ENDLESS COUPLING_INFINITY

static const struct {
    const char *name;
    take_call *take;
} peers[] = {{"plain C", integer_take}, {"plain C, each product once", integer_take_once}, {"hardware floats", machine_take}};

struct gauged {
    uint32_t lower, upper, wear_class;
};

/* Cells without a fault and with each. The last two are too large when they are widened by
   class 7; that of class 6 is crossed where the amount is below zero. */
static const struct gauged cells[] = {
    {ONE, TWO, 0}, {MINUS | TWO, ONE, 7}, {MINUS, 0, 0}, {MINUS | MOST, MOST, 0}, {MOST, MOST, 0}, {MINUS | MOST, MINUS | MOST, 0},
    {ONE, TWO, 8}, {ENDLESS, ENDLESS, 8}, {ENDLESS, ONE, 1}, {ONE, MINUS | ENDLESS, 1}, {TWO, ONE, 1},
    {ONE, ONE, 6}, {MOST, MOST, 7}, {MINUS | MOST, MINUS | MOST, 7},
};

/* Words before the call: both bounds, the number of pairs, the amounts of classes 6 and 7. */
static const uint32_t values[][5] = {
    {0, 0, 0, 0x3D000000, 0x3D800000},
    {ONE, TWO, 31, 0x3D000000, 0x3D800000},
    {ONE, TWO, 32, 0x3D000000, 0x3D800000},
    {MINUS | MOST, MOST, 1, 0x3D000000, 0x3D800000},
    {TWO, MINUS | TWO, 3, MINUS | ONE, MOST},
    {ENDLESS, ONE, 3, ENDLESS, MINUS | MOST},
    {ONE, MINUS | ENDLESS, 3, MINUS | ONE, MINUS},
};

#define COUNT(array) (sizeof array / sizeof array[0])

static void put_words(const uint32_t *from, uint32_t *value)
{
    coupling_running_start(value, WORDS);
    memcpy(value, from, 3 * sizeof *value);
    memcpy(value + COUPLING_RUNNING_AMOUNTS + 6, from + 3, 2 * sizeof *value);
}

static uint32_t answer(take_call *take, uint32_t *value, size_t length, size_t a, size_t b)
{
    return take(value, length, cells[a].lower, cells[a].upper, cells[a].wear_class, cells[b].lower, cells[b].upper, cells[b].wear_class);
}

static bool alike(size_t peer, size_t v, size_t a, size_t b, size_t length)
{
    uint32_t ours[WORDS], theirs[WORDS];
    put_words(values[v], ours);
    put_words(values[v], theirs);
    uint32_t expected = answer(coupling_running_take, ours, length, a, b), found = answer(peers[peer].take, theirs, length, a, b);
    if (found == expected && memcmp(ours, theirs, sizeof ours) == 0)
        return true;
    printf("%s, words %zu, cells %zu and %zu: %u, and the library %u, or the words differ\n", peers[peer].name, v, a, b,
           (unsigned)found, (unsigned)expected);
    return false;
}

bool refusals_alike(void)
{
    for (size_t p = 0; p < COUNT(peers); p++)
        for (size_t v = 0; v < COUNT(values); v++)
            for (size_t c = 0; c < COUNT(cells) * COUNT(cells); c++)
                if (!alike(p, v, c / COUNT(cells), c % COUNT(cells), WORDS))
                    return false;
    for (size_t p = 0; p < COUNT(peers); p++)
        if (!alike(p, 0, 0, 0, WORDS - 1))
            return false;
    return true;
}
