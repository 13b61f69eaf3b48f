/* Test drivers, not proved: random loads, the wear amounts of a mill, valid and faulty. */
#ifndef AMOUNTS_DRAW_H
#define AMOUNTS_DRAW_H

#include <stddef.h>
#include <stdint.h>

/* Writes a load into memory of LOAD_BYTES bytes (lent.h) and returns its length. About half
   of the loads are valid: small or large amounts, neighbouring numbers, equal ones, zeros of
   either sign, the fixed amounts. The others have one or two wrong or nearly wrong amounts,
   another length, or random bytes. */
size_t draw_load(uint8_t *load);

/* A valid load whose amounts are below 1/4. */
size_t draw_moderate_load(uint8_t *load);

#endif
