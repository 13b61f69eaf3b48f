/* Benchmarks, not proved: reader and writer of the coupling sheet in plain C: those of
   tests/oracle, with the operations of plain.c in place of the machine's rounding
   modes. The source is included here, so that the compiler can inline. */
#include "bits.h"

#include "../tests/oracle/parts.h"
#include "coupling.h"
#include "plain.h"

bool is_finite(uint32_t pattern)
{
    return !COUPLING_OPERATION_REFUSED(pattern);
}

uint32_t magnitude(uint32_t pattern)
{
    return pattern & ~SIGN_BIT;
}

/* The reader uses only two operations: subtraction rounded down, addition rounded up. */
uint32_t oracle_operate(enum operation operation, enum direction direction, uint32_t a, uint32_t b, uint32_t *result)
{
    (void)direction;
    uint32_t pattern = operation == SUB ? plain_sub_down(a, b) : plain_add_up(a, b);
    if (!is_finite(pattern))
        return pattern == COUPLING_INFINITY + COUPLING_NOT_FINITE ? COUPLING_NOT_FINITE : COUPLING_OVERFLOW;
    *result = pattern;
    return 0;
}

#include "../tests/oracle/interval.c"
#include "../tests/oracle/amounts.c"
#include "../tests/oracle/sheet_cell.c"
#include "../tests/oracle/sheet_read.c"
#include "../tests/oracle/sheet_write.c"
