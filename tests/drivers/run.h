/* Test drivers, not proved: the parts that all of them share. A driver draws random
   calls, makes each to the library and to the independent implementation, and compares
   the two. At its end it prints how often and at how many places each refusal occurred. */
#ifndef RUN_H
#define RUN_H

#include <stdbool.h>
#include <stddef.h>
#include <stdint.h>

#include "oracle.h"
#include "outcomes.h"

/* COUNT calls of a SEED, from index FIRST on: SEED 1 INDEX repeats one call. */
struct run { uint64_t seed, count, first; };

/* Reads the arguments SEED COUNT [FIRST]; ends the program where one is not a number. */
struct run run_of(int words, char **word);
uint64_t number_of(const char *word);

/* 1,000,000 number + 10,000 matrix + 100 row + column; 0 for an accepted call. */
uint32_t code_of(struct refusal refusal);

/* Counts a call; prints the index of the first call that differs. */
void end_call(uint64_t index, bool same);

bool all_the_same(void);    /* no call has differed so far */

/* Prints the table, the outcomes that occurred too seldom, and in the last line the
   number of calls and of differences with a summary of the table. Where FIRST was given,
   only the numbers. Returns the status of the program, 0 or 1. */
int end_run(const char *calls, const struct table *table);

#endif
