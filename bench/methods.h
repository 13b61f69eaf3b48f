/* Benchmarks, not proved: the methods, and which of them a peer has. */
#ifndef METHODS_H
#define METHODS_H

#include <stdbool.h>
#include <string.h>

#define METHODS 5
#define FIVE 3 /* the index of method 5 */
#define ALL_METHODS "13457"

static const int methods[METHODS] = {1, 3, 4, 5, 7};

/* Whether a peer whose methods are these digits has methods[index]. */
static inline bool has_method(const char *digits, int index)
{
    return strchr(digits, '0' + methods[index]) != NULL;
}

#endif
