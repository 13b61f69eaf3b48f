/* Test driver of running entries, not proved: random histories, which are calls one after
   another with the value that the ones before have left. */
#ifndef RUNNING_DRAW_H
#define RUNNING_DRAW_H

#include "cells.h"
#include "running_call.h"

/* What the calls of a history are like. */
struct history {
    bool foreign;                       /* the values are not made by the calls */
    bool moderate;                      /* no product of the cells and no accepted load is large */
    bool worn;                          /* cells of all classes, not of class 0 alone */
    struct kind a, b;                   /* of the numbers in the cells */
    int calls;                          /* how many there are, up to 40 */
    int faulty, exchanges, restarts;    /* one call of so many is such a one */
    uint32_t calm, limit;               /* the pairs before the first fault, and before sums are brought to a limit */
};

void draw_history(struct history *history);

/* The next call of the history, on this value. */
void draw_next_call(const struct history *history, const uint32_t *value, struct running_call *call);

/* The words of a value that no call has made: sums that are no numbers, minus zero, crossed or
   large, any number of pairs, amounts that are no numbers, below zero, large or in no order.
   Some of the words are as those of a value that was made. */
void draw_foreign_value(uint32_t *value);

#endif
