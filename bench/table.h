/* Benchmarks, not proved: prints tables in Markdown, field by field. */
#ifndef TABLE_H
#define TABLE_H

#include <stdio.h>

/* The line under the head of a table: the first column is aligned left, the others right. */
static inline void print_rule(int numbers)
{
    printf("|---|");
    for (int i = 0; i < numbers; i++)
        printf("---:|");
    printf("\n");
}

static inline void print_empty(void)
{
    printf(" %6s |", "");
}

/* With at least three significant digits for numbers from 1 on. */
static inline void print_number(double x)
{
    printf(" %6.*f |", x >= 100 ? 0 : x >= 10 ? 1 : x >= 1 ? 2 : 3, x);
}

/* With nine significant digits, for means that differ little, and of any size. */
static inline void print_mean(double x)
{
    printf(" %14.8e |", x);
}

static inline void print_ratio(double x, double y)
{
    printf(" %6.*f |", x >= 10 * y ? 1 : 2, x / y);
}

#endif
