/* Independent implementation, not proved: a filter for other programs. Each line of
   standard input is "METHOD K" and K times the bounds of a cell of A and of a cell of B,
   four patterns. For each a line is printed: the bounds of the entry, or "refuse N". Stops
   with status 1 at a malformed line. */
#include <inttypes.h>
#include <stdio.h>

#include "oracle.h"

#define MOST 32

static uint32_t a[2][MOST], b[2][MOST], work[4][MOST];

/* Reads the k pairs of an entry. */
static bool read_pairs(size_t k)
{
    for (size_t l = 0; l < k; l++)
        if (scanf("%8" SCNx32 " %8" SCNx32 " %8" SCNx32 " %8" SCNx32, &a[0][l], &a[1][l], &b[0][l], &b[1][l]) != 4)
            return false;
    return true;
}

int main(void)
{
    uint32_t method, lo, hi;
    size_t k;
    int fields;
    while ((fields = scanf("%" SCNu32 " %zu", &method, &k)) == 2) {
        if (k > MOST || !read_pairs(k))
            return 1;
        struct refusal refusal = oracle_product(method, 1, k, 1, a[0], k, a[1], k, b[0], k, b[1], k,
                                                work[0], k, work[1], k, work[2], k, work[3], k, &lo, 1, &hi, 1);
        if (refusal.number != 0)
            printf("refuse %" PRIu32 "\n", refusal.number);
        else
            printf("%08" PRIX32 " %08" PRIX32 "\n", lo, hi);
    }
    return fields == EOF && fflush(stdout) == 0 && !ferror(stdout) ? 0 : 1;
}
