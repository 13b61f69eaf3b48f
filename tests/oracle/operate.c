/* Independent implementation, not proved: a filter for other programs. Completes each
   line "XY AAAAAAAA BBBBBBBB" of standard input to a test vector (vector.h). A line whose
   XY is "mr" is completed by the midpoint and the radius of [A, B], or by "refuse 3" or
   "refuse 4". Stops with status 1 at a malformed line. */
#include <inttypes.h>
#include <stdio.h>
#include <string.h>

#include "vector.h"

static void print_conversion(uint32_t a, uint32_t b)
{
    uint32_t m, r;
    struct refusal refusal = oracle_to_midrad(a, b, &m, &r);
    printf("mr %08" PRIX32 " %08" PRIX32 " ", a, b);
    if (refusal.number != 0)
        printf("refuse %" PRIu32 "\n", refusal.number);
    else
        printf("%08" PRIX32 " %08" PRIX32 "\n", m, r);
}

int main(void)
{
    char operation, direction;
    uint32_t a, b;
    int fields;
    while ((fields = scanf(" %c%c %8" SCNx32 " %8" SCNx32,
                           &operation, &direction, &a, &b)) == 4) {
        const char *x = strchr(OPERATION_LETTERS, operation);
        const char *y = strchr(DIRECTION_LETTERS, direction);
        if (operation == 'm' && direction == 'r')
            print_conversion(a, b);
        else if (x != NULL && y != NULL)
            print_vector((enum operation)(x - OPERATION_LETTERS),
                         (enum direction)(y - DIRECTION_LETTERS), a, b);
        else
            return 1;
    }
    return fields == EOF && fflush(stdout) == 0 && !ferror(stdout) ? 0 : 1;
}
