/* Independent implementation, not proved: the rounded operations, by the machine's own
   binary32 arithmetic and rounding modes.

   The operands and the result of each rounded step are volatile and are used between
   two calls of fesetround. The compiler may not move accesses to volatile objects over
   these calls, so the step runs in the mode that is set and is not evaluated by the
   compiler. */
#include <fenv.h>
#include <float.h>
#include <math.h>
#include <stdlib.h>
#include <string.h>

#include "parts.h"

_Static_assert(FLT_EVAL_METHOD == 0, "float steps must be rounded to float");
_Static_assert(FLT_MANT_DIG == 24 && FLT_MAX_EXP == 128, "float is binary32");
_Static_assert(DBL_MANT_DIG == 53 && DBL_MIN_EXP == -1021, "double is binary64");

bool is_finite(uint32_t pattern)
{
    return ((pattern >> 23) & 0xFF) != 0xFF;
}

float value_of(uint32_t pattern)
{
    float value;
    memcpy(&value, &pattern, sizeof value);
    return value;
}

/* The pattern of a value; 0 for a zero of either sign. */
static uint32_t pattern_of(float value)
{
    uint32_t pattern;
    memcpy(&pattern, &value, sizeof pattern);
    return pattern == SIGN_BIT ? 0 : pattern;
}

uint32_t magnitude(uint32_t pattern)
{
    return pattern & ~SIGN_BIT;
}

static void set_mode(int mode)
{
    if (fesetround(mode) != 0)
        abort();
}

static int mode_of(enum direction direction)
{
    switch (direction) {
    case DOWN: return FE_DOWNWARD;
    case UP:   return FE_UPWARD;
    default:   return FE_TONEAREST;
    }
}

/* Addition, subtraction or multiplication, which the machine has itself. */
static float rounded_step(enum operation operation, int mode, float a, float b)
{
    volatile float x = a, y = b, result;
    int before = fegetround();
    set_mode(mode);
    switch (operation) {
    case ADD: result = x + y; break;
    case SUB: result = x - y; break;
    default:  result = x * y; break;
    }
    set_mode(before);
    return result;
}

static float narrowed(int mode, double value)
{
    volatile double x = value;
    volatile float result;
    int before = fegetround();
    set_mode(mode);
    result = (float)x;
    set_mode(before);
    return result;
}

/* a + b in binary64, rounded to odd: toward zero, with the last bit set where bits were
   lost. */
static double sum_to_odd(float a, float b)
{
    volatile double x = a, y = b, sum;
    int before = fegetround();
    set_mode(FE_TOWARDZERO);
    feclearexcept(FE_INEXACT);
    sum = x + y;
    int lost = fetestexcept(FE_INEXACT);
    set_mode(before);

    double result = sum;
    if (lost) {
        uint64_t bits;
        memcpy(&bits, &result, sizeof bits);
        bits |= 1;
        memcpy(&result, &bits, sizeof bits);
    }
    return result;
}

/* The exact (a + b)/2, rounded once. Where the sum fits binary64 it is exact. Where it
   does not, the sum rounded to odd lies strictly between the same two neighbouring
   binary64 numbers with an even last bit as the exact sum. Double a binary32 number, or
   a point halfway between two of them (half a unit too): the result has at most 25
   significant bits, so in binary64 its last bit is even. Hence the sum rounded to odd is
   on the same side of all these points as the exact sum, and the final rounding gives
   the same result for both. The halving is exact: the least magnitude is 2^-150, and
   binary64 is normal down to 2^-1022. The sum cannot overflow binary64. */
static float rounded_midpoint(int mode, float a, float b)
{
    return narrowed(mode, sum_to_odd(a, b) * 0.5);
}

/* The machine gives an infinity exactly where the library must refuse with 5: up above
   MAX, down below -MAX, to nearest for magnitudes of 2^128 - 2^103 or more. Up below
   -MAX it gives -MAX, and down above MAX it gives MAX, as the library must. */
uint32_t oracle_operate(enum operation operation, enum direction direction,
                        uint32_t a, uint32_t b, uint32_t *result)
{
    if (!is_finite(a) || !is_finite(b))
        return 3;
    float x = value_of(a), y = value_of(b);
    int mode = mode_of(direction);
    float rounded = operation == MIDPOINT ? rounded_midpoint(mode, x, y) : rounded_step(operation, mode, x, y);
    if (isinf(rounded))
        return 5;
    *result = pattern_of(rounded);
    return 0;
}
