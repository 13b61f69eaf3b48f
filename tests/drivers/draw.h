/* Test drivers, not proved: the source of all random choices. No expression draws
   twice, so that the order of the draws does not depend on the compiler. */
#ifndef DRAW_H
#define DRAW_H

#include <stdbool.h>
#include <stdint.h>

/* All later draws depend only on these two numbers. So the test call with a given
   index can be drawn again without the calls before it. */
void start_draws(uint64_t seed, uint64_t index);

uint32_t any_bits(void);
int from_to(int least, int greatest);
bool one_in(int n);     /* true with probability 1 / n */

#endif
