/* Benchmarks, not proved: the library compared with all peers, and its times by
   size. Each function prints tables, and returns false where a result differs. */
#ifndef COMPARE_H
#define COMPARE_H

#include <stdbool.h>

bool compare_peers(int rounds);
bool compare_sizes(int rounds);

#endif
