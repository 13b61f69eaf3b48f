/* Benchmarks, not proved: the operations of plain_number.h as functions. */
#include "plain.h"

#include "plain_number.h"

#define FUNCTION(name) uint32_t plain_##name(uint32_t a, uint32_t b) { return name(a, b); }

FUNCTION(add_down)
FUNCTION(add_up)
FUNCTION(add_near)
FUNCTION(sub_down)
FUNCTION(sub_up)
FUNCTION(sub_near)
FUNCTION(mul_down)
FUNCTION(mul_up)
FUNCTION(mul_near)
FUNCTION(midpoint_down)
FUNCTION(midpoint_up)
FUNCTION(midpoint_near)
