/* Benchmarks, not proved: the kinds of cells whose widths are compared. */
#ifndef KINDS_H
#define KINDS_H

#include <stdint.h>

/* The two bounds as patterns. */
struct cell {
    uint32_t lower, upper;
};

struct kind {
    const char *name, *meaning;

    /* A random cell of this kind; the sequence of cells is the same in each run. */
    struct cell (*draw)(void);
};

#define KINDS 6

extern const struct kind kinds[KINDS];

#endif
