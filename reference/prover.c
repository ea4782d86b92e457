/* The prover: messages 1, 3, 5 and 7. */
#include "layers.h"

#include <string.h>

struct bytes {
    const uint8_t *at;
    size_t length;
};

/* The inputs in document 01's order; a message takes the first few. */
struct inputs {
    struct bytes key, seeds, secret, E, K, L, hidden;
};

/* One message in the making. */
struct message {
    uint32_t number; /* 1, 3, 5 or 7 */
    struct key key;
    struct inputs in;
    uint32_t kept[MAX_EXECUTIONS];
    struct execution x;
};

static int secret_is_binary(const struct key *key, const uint8_t *secret)
{
    for (uint32_t k = 0; k < key->m; k++)
        if (secret[k] > 1)
            return 0;
    return 1;
}

/* A s = t, from the key's bytes. */
static int secret_is_right(const struct key *key, const uint8_t *secret)
{
    for (uint32_t l = 0; l < key->n; l++) {
        const uint8_t *row = key->entries + 4 * key->m * l;
        uint64_t sum = 0;
        for (uint32_t k = 0; k < key->m; k++)
            if (secret[k] == 1)
                sum += load_number(row + 4 * k);
        if (reduce(sum, key->q) != load_number(key->entries + 4 * (key->n * key->m + l)))
            return 0;
    }
    return 1;
}

static uint32_t message_length(const struct message *g)
{
    switch (g->number) {
    case 3: return part_3_length(&g->key);
    case 7: return part_7_length(&g->key, g->in.hidden.at);
    default: return 32;
    }
}

/* Refusals 1 to 10 of the inputs that the message takes. */
static uint32_t check_inputs(struct message *g)
{
    const struct inputs *in = &g->in;
    struct key *key = &g->key;
    uint32_t refused = read_key(key, in->key.at, in->key.length);
    if (refused)
        return refused;
    if (in->seeds.length != 16 * key->M)
        return INPUT_LENGTH;
    if (g->number == 1)
        return 0;
    if (in->secret.length != key->m || in->K.length != 16 || (g->number >= 5 && in->L.length != 16))
        return INPUT_LENGTH;
    if (!opened_is_right(key, in->E.at, in->E.length))
        return OPENED_WRONG;
    if (!secret_is_binary(key, in->secret.at))
        return SECRET_NOT_BINARY;
    if (!secret_is_right(key, in->secret.at))
        return SECRET_WRONG;
    if (g->number == 7 && !hidden_is_right(key, in->hidden.at, in->hidden.length))
        return HIDDEN_WRONG;
    list_kept(key, in->E.at, g->kept);
    return 0;
}

/* hGamma */
static void write_1(struct message *g, uint8_t *out)
{
    struct sha256 c;
    uint8_t h[32];
    sha256_start(&c);
    for (uint32_t e = 0; e < g->key.M; e++) {
        hash_from_master(&g->x, g->in.seeds.at + 16 * e, h);
        sha256_add(&c, h, 32);
    }
    sha256_end(&c, out);
}

/* Shares and alpha of a kept execution. */
static void share_secret(struct message *g, uint32_t e, unsigned want)
{
    struct execution *x = &g->x;
    tree_leaves(g->in.seeds.at + 16 * e, g->key.N, x->leaf);
    for (uint32_t i = 0; i < g->key.N; i++)
        expand_party(x, i, want);
    last_s_from_secret(x, g->in.secret.at);
    mask_secret(x, NO_PARTY);
}

/* The master seeds of E, Omega of the kept, hPi */
static void write_3(struct message *g, uint8_t *out)
{
    struct sha256 c;
    uint8_t mask[16], Pi[32];
    for (uint32_t j = 0; j < g->key.tau; j++, out += 16)
        memcpy(out, g->in.seeds.at + 16 * (g->in.E.at[j] - 1), 16);
    sha256_start(&c);
    for (uint32_t j = 0; j < g->key.kept; j++, out += 32) {
        uint32_t e = g->kept[j];
        share_secret(g, e, WANT_B | WANT_S);
        commit_last_share(&g->x, out);
        stream_block(g->in.K.at, 2 * e, mask);
        commit_alpha(&g->x, mask, Pi);
        sha256_add(&c, Pi, 32);
    }
    sha256_end(&c, out);
}

/* Shares, alpha and outputs of a kept execution. */
static void run_execution(struct message *g, uint32_t e)
{
    share_secret(g, e, WANT_B | WANT_D | WANT_S);
    last_d_from_square(&g->x);
    sum_alpha(&g->x);
    draw_coefficients(&g->x, g->in.L.at, e);
    compute_outputs(&g->x, NO_PARTY);
}

/* hPsi */
static void write_5(struct message *g, uint8_t *out)
{
    struct sha256 c;
    uint8_t mask[16], Psi[32];
    sha256_start(&c);
    for (uint32_t j = 0; j < g->key.kept; j++) {
        uint32_t e = g->kept[j];
        run_execution(g, e);
        stream_block(g->in.K.at, 2 * e + 1, mask);
        commit_outputs(&g->x, mask, Psi);
        sha256_add(&c, Psi, 32);
    }
    sha256_end(&c, out);
}

/* What part 7 holds of an execution; answers its end. */
static uint8_t *write_opening(struct message *g, uint32_t e, uint32_t hidden, uint8_t *out)
{
    commit_party(&g->x, hidden);
    return put_opening(&g->x, g->in.seeds.at + 16 * e, hidden, out);
}

/* K, then the openings */
static void write_7(struct message *g, uint8_t *out)
{
    memcpy(out, g->in.K.at, 16);
    out += 16;
    for (uint32_t j = 0; j < g->key.kept; j++) {
        run_execution(g, g->kept[j]);
        out = write_opening(g, g->kept[j], g->in.hidden.at[j] - 1u, out);
    }
}

static int64_t write_message(uint32_t number, const struct inputs *in, uint8_t *out, size_t out_len,
                             uint64_t place, const struct lent *lent)
{
    struct message g = {.number = number, .in = *in};
    uint32_t refused = check_inputs(&g);
    if (refused)
        return -(int64_t)refused;
    uint32_t length = message_length(&g);
    if (place > out_len || length > out_len - place || !lists_suffice(&g.key, lent))
        return -(int64_t)LENT_SHORT;
    load_numbers(lent->at, g.key.entries, entry_count(&g.key));
    execution_start(&g.x, &g.key, lent->work, lent->at);
    switch (number) {
    case 1: write_1(&g, out + place); break;
    case 3: write_3(&g, out + place); break;
    case 5: write_5(&g, out + place); break;
    default: write_7(&g, out + place);
    }
    return length;
}

int64_t ref_message_1_lent(const uint8_t *key, size_t key_len,
                           const uint8_t *seeds, size_t seeds_len,
                           uint8_t *out, size_t out_len, uint64_t place, const struct lent *lent)
{
    struct inputs in = {.key = {key, key_len}, .seeds = {seeds, seeds_len}};
    return write_message(1, &in, out, out_len, place, lent);
}

int64_t ref_message_3_lent(const uint8_t *key, size_t key_len,
                           const uint8_t *seeds, size_t seeds_len,
                           const uint8_t *secret, size_t secret_len,
                           const uint8_t *E, size_t E_len, const uint8_t *K, size_t K_len,
                           uint8_t *out, size_t out_len, uint64_t place, const struct lent *lent)
{
    struct inputs in = {.key = {key, key_len}, .seeds = {seeds, seeds_len},
                        .secret = {secret, secret_len}, .E = {E, E_len}, .K = {K, K_len}};
    return write_message(3, &in, out, out_len, place, lent);
}

int64_t ref_message_5_lent(const uint8_t *key, size_t key_len,
                           const uint8_t *seeds, size_t seeds_len,
                           const uint8_t *secret, size_t secret_len,
                           const uint8_t *E, size_t E_len, const uint8_t *K, size_t K_len,
                           const uint8_t *L, size_t L_len,
                           uint8_t *out, size_t out_len, uint64_t place, const struct lent *lent)
{
    struct inputs in = {.key = {key, key_len}, .seeds = {seeds, seeds_len},
                        .secret = {secret, secret_len}, .E = {E, E_len}, .K = {K, K_len},
                        .L = {L, L_len}};
    return write_message(5, &in, out, out_len, place, lent);
}

int64_t ref_message_7_lent(const uint8_t *key, size_t key_len,
                           const uint8_t *seeds, size_t seeds_len,
                           const uint8_t *secret, size_t secret_len,
                           const uint8_t *E, size_t E_len, const uint8_t *K, size_t K_len,
                           const uint8_t *L, size_t L_len, const uint8_t *hidden, size_t hidden_len,
                           uint8_t *out, size_t out_len, uint64_t place, const struct lent *lent)
{
    struct inputs in = {.key = {key, key_len}, .seeds = {seeds, seeds_len},
                        .secret = {secret, secret_len}, .E = {E, E_len}, .K = {K, K_len},
                        .L = {L, L_len}, .hidden = {hidden, hidden_len}};
    return write_message(7, &in, out, out_len, place, lent);
}

/* The calls with work lists of their own. */

int64_t ref_message_1(const uint8_t *key, size_t key_len, const uint8_t *seeds, size_t seeds_len,
                      uint8_t *out, size_t out_len, uint64_t place)
{
    uint32_t work[MAX_WORK], at[MAX_AT];
    struct lent lent = {work, MAX_WORK, at, MAX_AT};
    return ref_message_1_lent(key, key_len, seeds, seeds_len, out, out_len, place, &lent);
}

int64_t ref_message_3(const uint8_t *key, size_t key_len, const uint8_t *seeds, size_t seeds_len,
                      const uint8_t *secret, size_t secret_len, const uint8_t *E, size_t E_len,
                      const uint8_t *K, size_t K_len, uint8_t *out, size_t out_len, uint64_t place)
{
    uint32_t work[MAX_WORK], at[MAX_AT];
    struct lent lent = {work, MAX_WORK, at, MAX_AT};
    return ref_message_3_lent(key, key_len, seeds, seeds_len, secret, secret_len, E, E_len, K, K_len,
                              out, out_len, place, &lent);
}

int64_t ref_message_5(const uint8_t *key, size_t key_len, const uint8_t *seeds, size_t seeds_len,
                      const uint8_t *secret, size_t secret_len, const uint8_t *E, size_t E_len,
                      const uint8_t *K, size_t K_len, const uint8_t *L, size_t L_len,
                      uint8_t *out, size_t out_len, uint64_t place)
{
    uint32_t work[MAX_WORK], at[MAX_AT];
    struct lent lent = {work, MAX_WORK, at, MAX_AT};
    return ref_message_5_lent(key, key_len, seeds, seeds_len, secret, secret_len, E, E_len, K, K_len,
                              L, L_len, out, out_len, place, &lent);
}

int64_t ref_message_7(const uint8_t *key, size_t key_len, const uint8_t *seeds, size_t seeds_len,
                      const uint8_t *secret, size_t secret_len, const uint8_t *E, size_t E_len,
                      const uint8_t *K, size_t K_len, const uint8_t *L, size_t L_len,
                      const uint8_t *hidden, size_t hidden_len,
                      uint8_t *out, size_t out_len, uint64_t place)
{
    uint32_t work[MAX_WORK], at[MAX_AT];
    struct lent lent = {work, MAX_WORK, at, MAX_AT};
    return ref_message_7_lent(key, key_len, seeds, seeds_len, secret, secret_len, E, E_len, K, K_len,
                              L, L_len, hidden, hidden_len, out, out_len, place, &lent);
}
