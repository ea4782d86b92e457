/* The layers below the prover, the judge and the pair reader.
 *
 * Document 01 counts executions, parties and entries from 1, the code from 0. Its letters stay:
 * Gamma, Omega, Pi and Psi are commitments, alpha the masked secret, beta and gamma coefficients,
 * o the outputs. */
#ifndef LAYERS_H
#define LAYERS_H

#include "aes128.h"
#include "reference.h"
#include "sha256.h"

/* Numbers modulo q. */

static inline uint32_t reduce(uint64_t x, uint32_t q)
{
    switch (q) {
    case 257: return (uint32_t)(x % 257);
    case 65537: return (uint32_t)(x % 65537);
    default: return (uint32_t)(x % 2147483647);
    }
}

static inline uint32_t minus(uint32_t a, uint32_t b, uint32_t q) { return a >= b ? a - b : a + (q - b); }
static inline uint32_t plus(uint32_t a, uint32_t b, uint32_t q) { return minus(a, q - b, q); }
static inline uint32_t times(uint32_t a, uint32_t b, uint32_t q) { return reduce((uint64_t)a * b, q); }

/* 1/N for a power of two N: halved step by step. */
uint32_t inverse_of_parties(uint32_t N, uint32_t q);

static inline uint32_t load_number(const uint8_t *p)
{
    return p[0] | (uint32_t)p[1] << 8 | (uint32_t)p[2] << 16 | (uint32_t)p[3] << 24;
}

static inline void store_number(uint8_t *p, uint32_t x)
{
    p[0] = (uint8_t)x;
    p[1] = (uint8_t)(x >> 8);
    p[2] = (uint8_t)(x >> 16);
    p[3] = (uint8_t)(x >> 24);
}

void load_numbers(uint32_t *list, const uint8_t *bytes, size_t count);
void store_numbers(uint8_t *bytes, const uint32_t *list, size_t count);
void hash_numbers(struct sha256 *c, const uint32_t *list, size_t count);

/* Streams. */

void stream_block(const uint8_t seed[16], uint64_t j, uint8_t out[16]);
/* Numbers 0 to count - 1 from block first on. No block past 2^64 - 1, or count at most 128. */
void stream_numbers(const struct aes128 *seed, uint64_t first, uint32_t q, uint32_t *out, size_t count);

/* The key. */

struct key {
    uint32_t q, n, m, N, M, tau;
    uint32_t depth;         /* log2 N */
    uint32_t kept;          /* M - tau */
    const uint8_t *entries; /* A row by row, then t, in the key's bytes */
};

uint32_t read_key(struct key *key, const uint8_t *bytes, size_t length);
uint32_t entry_count(const struct key *key); /* of A and t */
uint32_t work_count(const struct key *key);  /* of work */
int lists_suffice(const struct key *key, const struct lent *lent);

uint32_t part_3_length(const struct key *key);
uint32_t part_7_length(const struct key *key, const uint8_t *hidden);
/* What part 7 holds for one kept execution, its hidden party from 0. */
uint32_t opening_length(const struct key *key, uint32_t hidden);

int opened_is_right(const struct key *key, const uint8_t *E, size_t length);
int hidden_is_right(const struct key *key, const uint8_t *hidden, size_t length);
void list_kept(const struct key *key, const uint8_t *E, uint32_t kept[MAX_EXECUTIONS]);

/* The seed tree. Leaves are N seeds of 16 bytes. */

void tree_leaves(const uint8_t root[16], uint32_t N, uint8_t (*leaves)[16]);
/* Writes the log2 N seeds that open all but the hidden leaf; answers their end. */
uint8_t *tree_open(const uint8_t root[16], uint32_t N, uint32_t hidden, uint8_t *opened);
/* The leaves from those seeds, the hidden one untouched. */
const uint8_t *tree_reopen(const uint8_t *opened, uint32_t N, uint32_t hidden, uint8_t (*leaves)[16]);

/* One execution, its lists in lent work. */

struct execution {
    const struct key *key;
    const uint32_t *at;
    uint32_t *shares;                  /* party i: b(k), d(k), s(k) from 3mi on */
    uint32_t *alpha;                   /* alpha(k,i), i running fastest */
    uint8_t leaf[MAX_PARTIES][16];
    uint8_t r[MAX_PARTIES][16];
    uint8_t g_last[16];                /* g(N) */
    uint8_t Gamma[MAX_PARTIES][32];
    uint32_t alpha_sum[MAX_COLUMNS];   /* alpha(k) */
    uint32_t coefficient[MAX_ROWS + MAX_COLUMNS]; /* beta, then gamma */
    uint32_t o[MAX_PARTIES];
};

#define NO_PARTY UINT32_MAX

void execution_start(struct execution *x, const struct key *key, uint32_t *work, const uint32_t *at);
uint32_t *shares_b(const struct execution *x, uint32_t i);
uint32_t *shares_d(const struct execution *x, uint32_t i);
uint32_t *shares_s(const struct execution *x, uint32_t i);

/* r and the wanted lists of party i from its leaf; for party N g(N) and b only. */
enum { WANT_B = 1, WANT_D = 2, WANT_S = 4 };
void expand_party(struct execution *x, uint32_t i, unsigned want);

void last_d_from_square(struct execution *x);
void last_s_from_secret(struct execution *x, const uint8_t *secret);

/* alpha(k,i) of all parties but one, whose entries are in place, and alpha(k). */
void mask_secret(struct execution *x, uint32_t but);
void sum_alpha(struct execution *x);

void draw_coefficients(struct execution *x, const uint8_t L[16], uint32_t e);
/* o(i) of all parties but one, whose o is in place. */
void compute_outputs(struct execution *x, uint32_t but);

void commit_party(struct execution *x, uint32_t i);                               /* Gamma(i) */
void hash_parties(const struct execution *x, uint8_t out[32]);                    /* h(e) */
void commit_last_share(const struct execution *x, uint8_t out[32]);               /* Omega */
void commit_alpha(const struct execution *x, const uint8_t g[16], uint8_t out[32]);   /* Pi */
void commit_outputs(const struct execution *x, const uint8_t w[16], uint8_t out[32]); /* Psi */

/* h(e) from a master seed. */
void hash_from_master(struct execution *x, const uint8_t master[16], uint8_t out[32]);

/* What part 7 holds of the execution: opened seeds, Gamma, alpha and o of the hidden party, and party N's d and s where it is open;
 * answers its end. */
uint8_t *put_opening(const struct execution *x, const uint8_t master[16], uint32_t hidden, uint8_t *out);

/* A transcript as the judge reads it. */

struct opening {
    uint32_t e;      /* the execution, from 0 */
    uint32_t hidden; /* the party, from 0 */
    const uint8_t *seeds, *Gamma, *alpha, *o;
    const uint8_t *d, *s; /* of party N; null where N is hidden */
};

struct transcript {
    const uint8_t *part[7];
    uint32_t part_7_length;
    struct opening opening[MAX_EXECUTIONS]; /* of the kept, rising */
};

/* What the judge hashes into the three list hashes. */
struct commitments {
    uint8_t h[MAX_EXECUTIONS][32];
    uint8_t Pi[MAX_EXECUTIONS][32], Psi[MAX_EXECUTIONS][32]; /* of the kept */
};

uint32_t read_transcript(struct transcript *run, const struct key *key, const uint8_t *bytes, size_t length);

/* Recomputes kept execution j; g and w are its blocks of K. */
void replay(struct execution *x, const struct transcript *run, uint32_t j, uint8_t g[16], uint8_t w[16]);
uint32_t judge_transcript(struct execution *x, const struct transcript *run, struct commitments *c);

/* The pair reader's comparisons. */

struct side {
    struct transcript run;
    struct commitments list;
    struct execution x; /* of the pair's execution */
    uint8_t g[16], w[16];
};

struct pair {
    struct key key;
    uint32_t j, e;  /* the execution where the hidden parties differ, among the kept and from 0 */
    struct side side[2];
    uint32_t second_work[MAX_WORK];
};

/* Judges both and replays the execution; 0, or the number of the refusal. */
uint32_t pair_start(struct pair *p, const uint8_t *run1, size_t run1_len,
                    const uint8_t *run2, size_t run2_len, const struct lent *lent);

/* Steps through the compared hash inputs: kind 1 to 8 and party i from 1, or 0. Starts at kind 0;
 * false at the end. */
int next_input(const struct pair *p, uint32_t *kind, uint32_t *i);
size_t write_input(const struct pair *p, const struct side *side, uint32_t kind, uint32_t i, uint8_t *out);

#endif
