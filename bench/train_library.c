/* Benchmarks, not proved: a train by the library, in one call, and by sheet jobs in a
   row, where the sheet that a job wrote is A of the next one. */
#include "train.h"

static size_t run_train(int method, const struct train *train, uint8_t *out)
{
    uint32_t r = coupling_train((uint32_t)method, SHEETS, train->bytes, SHEETS * train->length, out, COUPLING_SHEET_MAX);
    return COUPLING_REFUSED(r) ? 0 : r;
}

/* The jobs write to between and out in turns, the last one to out. */
static size_t run_jobs(int method, const struct train *train, uint8_t *out)
{
    static uint8_t between[COUPLING_SHEET_MAX];
    const uint8_t *a = train->bytes;
    size_t a_length = train->length;
    for (size_t i = 1; i < SHEETS; i++) {
        uint8_t *to = (SHEETS - i) % 2 == 1 ? out : between;
        uint32_t r = coupling_multiply((uint32_t)method, a, a_length, sheet_at(train, i), train->length, to, COUPLING_SHEET_MAX);
        if (COUPLING_REFUSED(r))
            return 0;
        a = to;
        a_length = r;
    }
    return a_length;
}

const struct train_peer peer_train = {"ours, one train", ALL_METHODS, run_train};
const struct train_peer peer_jobs = {"ours, seven sheet jobs", ALL_METHODS, run_jobs};
