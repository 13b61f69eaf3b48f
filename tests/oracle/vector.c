/* Independent implementation, not proved: prints the line of a test vector. */
#include <inttypes.h>
#include <stdio.h>

#include "vector.h"

void print_vector(enum operation operation, enum direction direction,
                  uint32_t a, uint32_t b)
{
    uint32_t result = 0;
    uint32_t refused = oracle_operate(operation, direction, a, b, &result);
    printf("%c%c %08" PRIX32 " %08" PRIX32 " ", OPERATION_LETTERS[operation],
           DIRECTION_LETTERS[direction], a, b);
    if (refused != 0)
        printf("refuse %" PRIu32 "\n", refused);
    else
        printf("%08" PRIX32 "\n", result);
}
