/* Benchmarks, not proved: the operations in plain C, to compare the library with.
   Each returns the same as the operation of the same name in coupling.h. */
#ifndef PLAIN_H
#define PLAIN_H

#include <stdint.h>

uint32_t plain_add_down(uint32_t a, uint32_t b);
uint32_t plain_add_up(uint32_t a, uint32_t b);
uint32_t plain_add_near(uint32_t a, uint32_t b);
uint32_t plain_sub_down(uint32_t a, uint32_t b);
uint32_t plain_sub_up(uint32_t a, uint32_t b);
uint32_t plain_sub_near(uint32_t a, uint32_t b);
uint32_t plain_mul_down(uint32_t a, uint32_t b);
uint32_t plain_mul_up(uint32_t a, uint32_t b);
uint32_t plain_mul_near(uint32_t a, uint32_t b);
uint32_t plain_midpoint_down(uint32_t a, uint32_t b);
uint32_t plain_midpoint_up(uint32_t a, uint32_t b);
uint32_t plain_midpoint_near(uint32_t a, uint32_t b);

#endif
