/* Test drivers, not proved: fills and compares the memory that is lent to a call. */
#include "lent.h"

#include <inttypes.h>
#include <stdio.h>
#include <string.h>

#include "run.h"

void fill_words(uint32_t *memory, size_t count)
{
    for (size_t i = 0; i < count; i++)
        memory[i] = 0x55A00000 + (uint32_t)i;
}

void fill_bytes(uint8_t *memory, size_t count)
{
    for (size_t i = 0; i < count; i++)
        memory[i] = (uint8_t)(i ^ 0xA5);
}

bool same_number(const char *name, uint32_t library, uint32_t expected)
{
    if (library != expected && all_the_same())
        printf("%s: library %" PRIu32 ", expected %" PRIu32 "\n", name, library, expected);
    return library == expected;
}

static void print_difference(const char *name, size_t at, int digits, uint32_t library, uint32_t expected)
{
    if (all_the_same())
        printf("%s[%td]: library %0*" PRIX32 ", expected %0*" PRIX32 "\n",
               name, (ptrdiff_t)at - GUARD, digits, library, digits, expected);
}

bool same_words(const char *name, const uint32_t *library, const uint32_t *expected, size_t count)
{
    if (memcmp(library, expected, count * sizeof *library) == 0)
        return true;
    size_t at = 0;
    while (library[at] == expected[at])
        at++;
    print_difference(name, at, 8, library[at], expected[at]);
    return false;
}

bool same_bytes(const char *name, const uint8_t *library, const uint8_t *expected, size_t count)
{
    if (memcmp(library, expected, count) == 0)
        return true;
    size_t at = 0;
    while (library[at] == expected[at])
        at++;
    print_difference(name, at, 2, library[at], expected[at]);
    return false;
}
