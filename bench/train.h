/* Benchmarks, not proved: a train of sheets to be multiplied, and the peers that
   multiply it. Each reads the sheets, multiplies from the left and writes the sheet
   of the last product. */
#ifndef TRAIN_H
#define TRAIN_H

#include "coupling.h"
#include "matrices.h"
#include "methods.h"

#define SHEETS COUPLING_SHEETS_MAX

/* Full sheets of size by size, all of one length, back to back. */
struct train {
    size_t size, length;
    uint8_t bytes[SHEETS * COUPLING_SHEET_MAX];
};

struct train_peer {
    const char *name;
    const char *methods; /* a digit for each method that it has */

    /* Multiplies the train; timed. Returns the length of the sheet in out, which has
       COUPLING_SHEET_MAX bytes, or 0 on a refusal. */
    size_t (*run)(int method, const struct train *train, uint8_t *out);
};

extern const struct train_peer peer_train, peer_jobs;
extern const struct train_peer peer_train_integers, peer_train_once, peer_train_machine;

/* Returns whether all sheets were written, each with size times size cells. */
bool draw_train(size_t size, struct train *train);

/* Sheet 0 to SHEETS - 1 of a train. */
static inline const uint8_t *sheet_at(const struct train *train, size_t index)
{
    return train->bytes + index * train->length;
}

#endif
