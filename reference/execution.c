/* One execution: shares, masked secret, outputs and their commitments. */
#include "layers.h"

#include <string.h>

void execution_start(struct execution *x, const struct key *key, uint32_t *work, const uint32_t *at)
{
    x->key = key;
    x->at = at;
    x->shares = work;
    x->alpha = work + 3 * key->m * key->N;
}

uint32_t *shares_b(const struct execution *x, uint32_t i) { return x->shares + 3 * x->key->m * i; }
uint32_t *shares_d(const struct execution *x, uint32_t i) { return shares_b(x, i) + x->key->m; }
uint32_t *shares_s(const struct execution *x, uint32_t i) { return shares_b(x, i) + 2 * x->key->m; }

void expand_party(struct execution *x, uint32_t i, unsigned want)
{
    const struct key *key = x->key;
    uint32_t m = key->m, *list = shares_b(x, i);
    struct aes128 seed;
    uint8_t block[2][16];
    aes128_expand(&seed, x->leaf[i]);
    aes128_counters(&seed, 0, block[0], i + 1 == key->N ? 2 : 1);
    memcpy(x->r[i], block[0], 16);
    if (i + 1 == key->N) {
        memcpy(x->g_last, block[1], 16);
        stream_numbers(&seed, 2, key->q, list, m);
    } else if (want == (WANT_B | WANT_S)) { /* s begins on a block: 2m numbers stand before it */
        stream_numbers(&seed, 2, key->q, list, m);
        stream_numbers(&seed, 2 + m, key->q, list + 2 * m, m);
    } else {
        stream_numbers(&seed, 2, key->q, list, want & WANT_S ? 3 * m : 2 * m);
    }
}

/* Sum over the first count parties of the numbers at list, list + 3m, .. */
static uint32_t sum_parties(const struct key *key, const uint32_t *list, uint32_t count)
{
    uint64_t sum = 0;
    for (uint32_t i = 0; i < count; i++)
        sum += list[3 * key->m * i];
    return reduce(sum, key->q);
}

void last_d_from_square(struct execution *x)
{
    const struct key *key = x->key;
    uint32_t *d = shares_d(x, key->N - 1);
    for (uint32_t k = 0; k < key->m; k++) {
        uint32_t b = sum_parties(key, shares_b(x, 0) + k, key->N);
        uint32_t others = sum_parties(key, shares_d(x, 0) + k, key->N - 1);
        d[k] = minus(times(b, b, key->q), others, key->q);
    }
}

void last_s_from_secret(struct execution *x, const uint8_t *secret)
{
    const struct key *key = x->key;
    uint32_t *s = shares_s(x, key->N - 1);
    for (uint32_t k = 0; k < key->m; k++)
        s[k] = minus(secret[k], sum_parties(key, shares_s(x, 0) + k, key->N - 1), key->q);
}

void mask_secret(struct execution *x, uint32_t but)
{
    const struct key *key = x->key;
    for (uint32_t i = 0; i < key->N; i++) {
        if (i == but)
            continue;
        const uint32_t *b = shares_b(x, i), *s = shares_s(x, i);
        for (uint32_t k = 0; k < key->m; k++)
            x->alpha[key->N * k + i] = minus(s[k], b[k], key->q);
    }
}

void sum_alpha(struct execution *x)
{
    const struct key *key = x->key;
    for (uint32_t k = 0; k < key->m; k++) {
        uint64_t sum = 0;
        for (uint32_t i = 0; i < key->N; i++)
            sum += x->alpha[key->N * k + i];
        x->alpha_sum[k] = reduce(sum, key->q);
    }
}

void draw_coefficients(struct execution *x, const uint8_t L[16], uint32_t e)
{
    uint32_t count = x->key->n + x->key->m;
    struct aes128 seed;
    aes128_expand(&seed, L);
    stream_numbers(&seed, e * ((count + 1) / 2), x->key->q, x->coefficient, count);
}

/* Sum over l of beta(l) A(l,k), for each k. */
static void combine_rows(const struct execution *x, uint32_t column[MAX_COLUMNS])
{
    const struct key *key = x->key;
    memset(column, 0, 4 * key->m);
    for (uint32_t l = 0; l < key->n; l++) {
        const uint32_t *row = x->at + key->m * l;
        uint64_t beta = x->coefficient[l];
        for (uint32_t k = 0; k < key->m; k++)
            column[k] = reduce(column[k] + beta * row[k], key->q);
    }
}

/* Sum over l of beta(l) t(l)/N. */
static uint32_t combine_target(const struct execution *x)
{
    const struct key *key = x->key;
    const uint32_t *t = x->at + key->n * key->m;
    uint32_t sum = 0;
    for (uint32_t l = 0; l < key->n; l++)
        sum = reduce(sum + (uint64_t)x->coefficient[l] * t[l], key->q);
    return times(sum, inverse_of_parties(key->N, key->q), key->q);
}

/* With c(k) = sum over l of beta(l) A(l,k), the terms of s(k,i) in o(i) are gathered:
 * gamma alpha (s + b) + gamma (d - s) - c s = (gamma alpha - gamma - c) s + gamma alpha b + gamma d. */
void compute_outputs(struct execution *x, uint32_t but)
{
    const struct key *key = x->key;
    const uint32_t *gamma = x->coefficient + key->n;
    uint32_t of_s[MAX_COLUMNS], of_b[MAX_COLUMNS], target = combine_target(x);
    combine_rows(x, of_s);
    for (uint32_t k = 0; k < key->m; k++) {
        of_b[k] = times(gamma[k], x->alpha_sum[k], key->q);
        of_s[k] = minus(minus(of_b[k], gamma[k], key->q), of_s[k], key->q);
    }
    for (uint32_t i = 0; i < key->N; i++) {
        if (i == but)
            continue;
        const uint32_t *b = shares_b(x, i), *d = shares_d(x, i), *s = shares_s(x, i);
        uint32_t o = target;
        for (uint32_t k = 0; k < key->m; k++) /* three products and o are below 2^64 */
            o = reduce(o + (uint64_t)of_s[k] * s[k] + (uint64_t)of_b[k] * b[k] + (uint64_t)gamma[k] * d[k],
                       key->q);
        x->o[i] = o;
    }
}

void commit_party(struct execution *x, uint32_t i)
{
    struct sha256 c;
    sha256_start(&c);
    sha256_add(&c, x->leaf[i], 16);
    if (i + 1 == x->key->N)
        hash_numbers(&c, shares_d(x, i), x->key->m);
    sha256_add(&c, x->r[i], 16);
    sha256_end(&c, x->Gamma[i]);
}

void hash_parties(const struct execution *x, uint8_t out[32])
{
    sha256(x->Gamma[0], 32 * x->key->N, out);
}

/* com(list, r) */
static void commit_numbers(const uint32_t *list, size_t count, const uint8_t r[16], uint8_t out[32])
{
    struct sha256 c;
    sha256_start(&c);
    hash_numbers(&c, list, count);
    sha256_add(&c, r, 16);
    sha256_end(&c, out);
}

void commit_last_share(const struct execution *x, uint8_t out[32])
{
    commit_numbers(shares_s(x, x->key->N - 1), x->key->m, x->g_last, out);
}

void commit_alpha(const struct execution *x, const uint8_t g[16], uint8_t out[32])
{
    commit_numbers(x->alpha, x->key->m * x->key->N, g, out);
}

void commit_outputs(const struct execution *x, const uint8_t w[16], uint8_t out[32])
{
    commit_numbers(x->o, x->key->N, w, out);
}

void hash_from_master(struct execution *x, const uint8_t master[16], uint8_t out[32])
{
    uint32_t N = x->key->N;
    tree_leaves(master, N, x->leaf);
    for (uint32_t i = 0; i < N; i++)
        expand_party(x, i, WANT_B | WANT_D);
    last_d_from_square(x);
    for (uint32_t i = 0; i < N; i++)
        commit_party(x, i);
    hash_parties(x, out);
}

uint8_t *put_opening(const struct execution *x, const uint8_t master[16], uint32_t hidden, uint8_t *out)
{
    uint32_t m = x->key->m, N = x->key->N;
    out = tree_open(master, N, hidden, out);
    memcpy(out, x->Gamma[hidden], 32);
    out += 32;
    for (uint32_t k = 0; k < m; k++, out += 4)
        store_number(out, x->alpha[N * k + hidden]);
    store_number(out, x->o[hidden]);
    out += 4;
    if (hidden + 1 == N)
        return out;
    store_numbers(out, shares_d(x, N - 1), m);
    store_numbers(out + 4 * m, shares_s(x, N - 1), m);
    return out + 8 * m;
}
