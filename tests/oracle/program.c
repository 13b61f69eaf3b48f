/* Independent implementation, not proved: the program that prints a product, from
   standard input to standard output. */
#include <stdio.h>

#include "oracle.h"

/* More than the 32,802 bytes that count, so that oracle_print itself ignores the rest. */
static uint8_t input[40000];
static char text[40000];

int main(void)
{
    size_t len = fread(input, 1, sizeof input, stdin);
    size_t length = oracle_print(input, len, text, sizeof text);
    return fwrite(text, 1, length, stdout) == length ? 0 : 1;
}
