/* Test driver of running entries, not proved: a call, made to the library and to the
   independent implementation. */
#ifndef RUNNING_CALL_H
#define RUNNING_CALL_H

#include "lent.h"
#include "oracle.h"

#define VALUE_WORDS 16      /* 11, the words of a value, and a surplus */

enum action { START, TAKE, EXCHANGE };

/* What the call does, the length of the value, a pair of cells, which is taken, and a load,
   whose amounts are exchanged for those in force. */
struct running_call {
    enum action action;
    size_t length, load_length;
    struct gauged a, b;
    uint8_t load[GUARDED(LOAD_BYTES)];
};

/* A running entry in three forms: the library's value; the expected one, with its history; and
   the one that the words alone give, by one step. */
struct entries {
    struct running history;
    uint32_t library[GUARDED(VALUE_WORDS)], expected[GUARDED(VALUE_WORDS)], stepped[GUARDED(VALUE_WORDS)];
};

/* Fills the memory so that neighbouring words differ. */
void fill_entries(struct entries *entries);

/* Puts these words, which no call has made, into all three values. */
void put_foreign_value(struct entries *entries, const uint32_t *words);

/* Makes the call to all three, and returns whether answers and memory are equal. *answer is that
   of the independent implementation. What is expected follows from all pairs that were taken;
   for a foreign value, which has no history, from its words alone. */
bool running_alike(struct entries *entries, const struct running_call *call, bool foreign, uint32_t *answer);

#endif
