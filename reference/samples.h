/* Keys, inputs and transcripts made from a deterministic generator, for timings and comparisons. */
#ifndef SAMPLES_H
#define SAMPLES_H

#include "layers.h"

uint64_t random_word(uint64_t *state); /* xorshift; the state is never 0 */
uint32_t random_below(uint64_t *state, uint32_t limit);
void random_bytes(uint64_t *state, uint8_t *p, size_t length);

enum { MAX_RUN = 65536 };

struct sample {
    uint8_t key[24 + 4 * MAX_AT], seeds[16 * MAX_EXECUTIONS], secret[MAX_COLUMNS];
    uint8_t E[MAX_EXECUTIONS], K[16], L[16], hidden[2][MAX_EXECUTIONS];
    size_t key_len, run_len[2];
    uint8_t run[2][MAX_RUN];
    uint32_t pair; /* the place among the kept where the hidden lists part first */
    struct key read;
};

/* A key for q, n, m, N, M, tau with a secret, seeds, challenges and two hidden lists. */
void make_inputs(struct sample *s, const uint32_t record[6], uint64_t *state);

/* Both transcripts by the prover's messages. */
void make_honest(struct sample *s);

/* Both transcripts by a badge that cheats, knowing L and the hidden lists beforehand. */
enum cheat {
    CHEAT_SQUARE, /* a wrong secret, its error taken up by a wrong square */
    CHEAT_LUCKY,  /* the right secret with wrong squares that cancel */
    CHEAT_ERRORS, /* a wrong secret whose errors cancel; found by trying, so for q 257 only */
    CHEAT_FORGED  /* as CHEAT_SQUARE, and every other kept execution made from random bytes */
};
void make_cheating(struct sample *s, enum cheat cheat, uint64_t *state);

/* Changes, cuts or lengthens a list of bytes in place. */
void damage(uint8_t *data, size_t *length, size_t most, uint64_t *state);

/* Changes a well formed transcript behind its header: E, the hidden list, part 7's length or one of its numbers. */
void damage_parts(uint8_t *run, size_t *length, size_t most, uint32_t q, uint64_t *state);

#endif
