/* Benchmarks, not proved: a peer is an implementation of the products that is timed
   and compared with the library, which is itself one of them. */
#ifndef PEER_H
#define PEER_H

#include "matrices.h"
#include "methods.h"

#ifdef __cplusplus
extern "C" {
#endif

struct peer {
    const char *name;
    const char *methods; /* a digit for each method that it has */

    /* Copies the matrices in the peer's own representation; not timed. */
    void (*load)(const struct matrices *x);

    /* Multiplies the loaded matrices; timed. Returns false on overflow. */
    bool (*run)(int method);

    /* The bounds of the product as patterns, by rows, 0 for both zeros; not timed. */
    void (*result)(uint32_t *lower, uint32_t *upper);
};

extern const struct peer peer_job, peer_class_job, peer_product;
extern const struct peer peer_integers, peer_once, peer_machine;
extern const struct peer peer_mpfr, peer_mpfi, peer_boost, peer_boost_hoisted;

#ifdef __cplusplus
}
#endif

#endif
