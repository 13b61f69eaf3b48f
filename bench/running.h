/* Benchmarks, not proved: the pairs of cells that running entries take, and the peers
   that carry the entries. */
#ifndef RUNNING_H
#define RUNNING_H

#include "coupling.h"
#include "matrices.h"

/* SIZE entries of SIZE pairs. Pair l of entry e is cell e * SIZE + l of A with the same
   cell of B: their bounds and classes as gauged, and their bounds as widened. */
struct gauges {
    struct matrices gauged, widened;
    uint32_t a_class[CELLS], b_class[CELLS];
};

/* Random cells; they have random classes 0 to 7 where they are worn, and class 0
   otherwise. */
void draw_gauges(const struct data_set *set, bool worn, struct gauges *x);

/* The range after each pair, in the order of the pairs. */
struct ranges {
    uint32_t lower[CELLS], upper[CELLS];
};

/* Each is called and answers as the function coupling_running_.. of coupling.h. */
typedef uint32_t start_call(uint32_t *value, size_t value_len);
typedef uint32_t take_call(uint32_t *value, size_t value_len, uint32_t a_lower, uint32_t a_upper, uint32_t a_class,
                           uint32_t b_lower, uint32_t b_upper, uint32_t b_class);
typedef uint32_t amounts_call(uint32_t *value, size_t value_len, const uint8_t *load, size_t load_len);

start_call plain_start;
amounts_call plain_amounts;
take_call integer_take, integer_take_once, machine_take;

/* The code of a refusal; each has matrix, row and column 0. */
static inline uint32_t refusal(uint32_t number)
{
    return 1000000 * number;
}

struct running_peer {
    const char *name;
    bool each; /* whether it has a range after each pair, or only after the last one of an entry */

    /* Works out all entries; timed. Returns false on a refusal. */
    bool (*run)(const struct gauges *x, struct ranges *out);
};

#define RUNNING_PEERS 6
#define OURS 0

extern const struct running_peer running_peers[RUNNING_PEERS];

/* Times a start and an exchange of amounts, by the library and by plain C, and prints a
   table. Returns false where they differ. */
bool print_calls(int rounds);

/* Whether the peers refuse as the library does, and leave the same words; prints where
   one does not. */
bool refusals_alike(void);

#endif
