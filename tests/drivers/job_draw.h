/* Test drivers of jobs, of trains and of the printed product, not proved: random arguments. */
#ifndef JOB_DRAW_H
#define JOB_DRAW_H

#include "lent.h"

struct job {
    uint32_t method;
    size_t a_length, b_length;
    uint8_t a[GUARDED(BYTES)], b[GUARDED(BYTES)];
};

/* 1, 3, 4, 5 or 7, or now and then any digit. */
uint32_t draw_method(void);

/* Draws a method and two sheets of either kind, which can be multiplied, cannot, or are
   damaged. The sheets are put behind guard bytes, which are filled. */
void draw_job(struct job *job);

#endif
