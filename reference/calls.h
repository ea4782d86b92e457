/* The calls of one implementation in one form, so that a program can give the same inputs to several. */
#ifndef CALLS_H
#define CALLS_H

#include "reference.h"

struct list {
    uint8_t *at;
    size_t length;
};

struct number_list {
    uint32_t *at;
    size_t length;
};

/* The prover's inputs in document 01's order; a message takes the first few. */
enum { IN_KEY, IN_SEEDS, IN_SECRET, IN_E, IN_K, IN_L, IN_HIDDEN, INPUTS };

/* What the pair reader is lent for its findings. */
struct pair_outputs {
    struct list hash1, hash2, secret;
    struct number_list uv, answer;
};

/* Where lent is null, the call takes work lists of its own. */
struct calls {
    const char *name;
    uint32_t (*judge)(struct list key, struct list run, const struct lent *lent);
    int64_t (*message)(int number, const struct list in[INPUTS], struct list out, uint64_t place, const struct lent *lent);
    int64_t (*pair)(struct list key, struct list run1, struct list run2, const struct pair_outputs *out, const struct lent *lent);
};

extern const struct calls reference_calls;
extern const struct calls badge_calls; /* of include/badge.h */

#endif
