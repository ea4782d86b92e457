/* The judge. */
#include "layers.h"

#include <string.h>

/* What the opening says of the hidden party and of party N. */
static void take_opening(struct execution *x, const struct opening *o)
{
    uint32_t m = x->key->m, N = x->key->N;
    tree_reopen(o->seeds, N, o->hidden, x->leaf);
    memcpy(x->Gamma[o->hidden], o->Gamma, 32);
    for (uint32_t k = 0; k < m; k++)
        x->alpha[N * k + o->hidden] = load_number(o->alpha + 4 * k);
    x->o[o->hidden] = load_number(o->o);
    if (o->d) {
        load_numbers(shares_d(x, N - 1), o->d, m);
        load_numbers(shares_s(x, N - 1), o->s, m);
    }
}

void replay(struct execution *x, const struct transcript *run, uint32_t j, uint8_t g[16], uint8_t w[16])
{
    const struct opening *o = &run->opening[j];
    uint8_t masks[2][16];
    struct aes128 K;
    take_opening(x, o);
    for (uint32_t i = 0; i < x->key->N; i++)
        if (i != o->hidden) {
            expand_party(x, i, WANT_B | WANT_D | WANT_S);
            commit_party(x, i);
        }
    mask_secret(x, o->hidden);
    sum_alpha(x);
    draw_coefficients(x, run->part[3], o->e);
    compute_outputs(x, o->hidden);
    aes128_expand(&K, run->part[6]);
    aes128_counters(&K, 2 * o->e, masks[0], 2);
    memcpy(g, masks[0], 16);
    memcpy(w, masks[1], 16);
}

/* Omega of part 3 against what is open; anything goes where N is hidden. */
static int omega_is_right(const struct execution *x, const struct transcript *run, uint32_t j)
{
    uint8_t Omega[32];
    if (!run->opening[j].d)
        return 1;
    commit_last_share(x, Omega);
    return memcmp(Omega, run->part[2] + 16 * x->key->tau + 32 * j, 32) == 0;
}

static int outputs_cancel(const struct execution *x)
{
    uint64_t sum = 0;
    for (uint32_t i = 0; i < x->key->N; i++)
        sum += x->o[i];
    return reduce(sum, x->key->q) == 0;
}

static int hash_is(const uint8_t *list, uint32_t count, const uint8_t expected[32])
{
    uint8_t hash[32];
    sha256(list, 32 * count, hash);
    return memcmp(hash, expected, 32) == 0;
}

uint32_t judge_transcript(struct execution *x, const struct transcript *run, struct commitments *c)
{
    const struct key *key = x->key;
    uint8_t g[16], w[16];
    for (uint32_t j = 0; j < key->kept; j++) {
        replay(x, run, j, g, w);
        if (!omega_is_right(x, run, j))
            return OMEGA_WRONG;
        if (!outputs_cancel(x))
            return SUM_WRONG;
        hash_parties(x, c->h[run->opening[j].e]);
        commit_alpha(x, g, c->Pi[j]);
        commit_outputs(x, w, c->Psi[j]);
    }
    for (uint32_t j = 0; j < key->tau; j++)
        hash_from_master(x, run->part[2] + 16 * j, c->h[run->part[1][j] - 1]);
    if (!hash_is(c->h[0], key->M, run->part[0]))
        return GAMMA_WRONG;
    if (!hash_is(c->Pi[0], key->kept, run->part[2] + part_3_length(key) - 32))
        return PI_WRONG;
    if (!hash_is(c->Psi[0], key->kept, run->part[4]))
        return PSI_WRONG;
    return ACCEPTED;
}

uint32_t ref_judge_lent(const uint8_t *key_bytes, size_t key_len, const uint8_t *run_bytes, size_t run_len,
                        const struct lent *lent)
{
    struct key key;
    struct transcript run;
    struct commitments c;
    struct execution x;
    uint32_t refused = read_key(&key, key_bytes, key_len);
    if (refused)
        return refused;
    if (!lists_suffice(&key, lent))
        return LENT_SHORT;
    refused = read_transcript(&run, &key, run_bytes, run_len);
    if (refused)
        return refused;
    load_numbers(lent->at, key.entries, entry_count(&key));
    execution_start(&x, &key, lent->work, lent->at);
    return judge_transcript(&x, &run, &c);
}

uint32_t ref_judge(const uint8_t *key, size_t key_len, const uint8_t *run, size_t run_len)
{
    uint32_t work[MAX_WORK], at[MAX_AT];
    struct lent lent = {work, MAX_WORK, at, MAX_AT};
    return ref_judge_lent(key, key_len, run, run_len, &lent);
}
