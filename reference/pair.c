/* The pair reader. */
#include "layers.h"

#include <string.h>

/* Kinds of hash inputs, in the order of comparison. */
enum { KIND_H_GAMMA = 1, KIND_H, KIND_GAMMA, KIND_OMEGA, KIND_H_PI, KIND_PI, KIND_H_PSI, KIND_PSI };

static uint32_t judge_side(struct pair *p, struct side *side, const uint8_t *bytes, size_t length,
                           uint32_t *work, const uint32_t *at)
{
    uint32_t refused = read_transcript(&side->run, &p->key, bytes, length);
    if (refused)
        return refused;
    execution_start(&side->x, &p->key, work, at);
    return judge_transcript(&side->x, &side->run, &side->list);
}

uint32_t pair_start(struct pair *p, const uint8_t *run1, size_t run1_len,
                    const uint8_t *run2, size_t run2_len, const struct lent *lent)
{
    struct side *one = &p->side[0], *two = &p->side[1];
    load_numbers(lent->at, p->key.entries, entry_count(&p->key));
    if (judge_side(p, one, run1, run1_len, lent->work, lent->at))
        return FIRST_REFUSED;
    if (judge_side(p, two, run2, run2_len, p->second_work, lent->at))
        return SECOND_REFUSED;
    size_t parts = (size_t)(one->run.part[5] - one->run.part[0]);
    if (memcmp(one->run.part[0], two->run.part[0], parts) != 0)
        return PARTS_DIFFER;
    p->j = 0;
    while (p->j < p->key.kept && one->run.opening[p->j].hidden == two->run.opening[p->j].hidden)
        p->j++;
    if (p->j == p->key.kept)
        return HIDDEN_EQUAL;
    p->e = one->run.opening[p->j].e;
    for (int side = 0; side < 2; side++)
        replay(&p->side[side].x, &p->side[side].run, p->j, p->side[side].g, p->side[side].w);
    return 0;
}

/* Party i, from 0. */
static int is_open(const struct pair *p, int side, uint32_t i)
{
    return p->side[side].run.opening[p->j].hidden != i;
}

int next_input(const struct pair *p, uint32_t *kind, uint32_t *i)
{
    uint32_t N = p->key.N;
    if (*kind != KIND_GAMMA) {
        *kind += 1;
        *i = 0;
    }
    if (*kind == KIND_GAMMA) {
        for (*i += 1; *i <= N; *i += 1)
            if (is_open(p, 0, *i - 1) && is_open(p, 1, *i - 1))
                return 1;
        *kind = KIND_OMEGA;
    }
    if (*kind == KIND_OMEGA) {
        *i = N;
        if (is_open(p, 0, N - 1) && is_open(p, 1, N - 1))
            return 1;
        *kind = KIND_H_PI;
        *i = 0;
    }
    return *kind <= KIND_PSI;
}

static size_t put(uint8_t *out, size_t length, const uint8_t *bytes, size_t count)
{
    memcpy(out + length, bytes, count);
    return length + count;
}

static size_t put_numbers(uint8_t *out, size_t length, const uint32_t *list, size_t count)
{
    store_numbers(out + length, list, count);
    return length + 4 * count;
}

size_t write_input(const struct pair *p, const struct side *side, uint32_t kind, uint32_t i, uint8_t *out)
{
    const struct execution *x = &side->x;
    uint32_t m = p->key.m, N = p->key.N;
    size_t length = 0;
    switch (kind) {
    case KIND_H_GAMMA: return put(out, 0, side->list.h[0], 32 * p->key.M);
    case KIND_H: return put(out, 0, x->Gamma[0], 32 * N);
    case KIND_GAMMA:
        length = put(out, length, x->leaf[i - 1], 16);
        if (i == N)
            length = put_numbers(out, length, shares_d(x, N - 1), m);
        return put(out, length, x->r[i - 1], 16);
    case KIND_OMEGA:
        length = put_numbers(out, length, shares_s(x, N - 1), m);
        return put(out, length, x->g_last, 16);
    case KIND_H_PI: return put(out, 0, side->list.Pi[0], 32 * p->key.kept);
    case KIND_PI:
        length = put_numbers(out, length, x->alpha, m * N);
        return put(out, length, side->g, 16);
    case KIND_H_PSI: return put(out, 0, side->list.Psi[0], 32 * p->key.kept);
    default:
        length = put_numbers(out, length, x->o, N);
        return put(out, length, side->w, 16);
    }
}

/* The first inputs that differ, in hash1 and hash2; these are written only then. */
static int find_collision(const struct pair *p, uint8_t *hash1, uint8_t *hash2, uint32_t *answer)
{
    uint8_t one[MAX_HASH_INPUT], two[MAX_HASH_INPUT];
    uint32_t kind = 0, i = 0;
    while (next_input(p, &kind, &i)) {
        size_t length = write_input(p, &p->side[0], kind, i, one);
        write_input(p, &p->side[1], kind, i, two);
        if (memcmp(one, two, length) == 0)
            continue;
        memcpy(hash1, one, length);
        memcpy(hash2, two, length);
        answer[ANSWER_KIND] = kind;
        answer[ANSWER_E] = p->e + 1;
        answer[ANSWER_I] = i;
        answer[ANSWER_LENGTH] = (uint32_t)length;
        return 1;
    }
    return 0;
}

/* b(k), d(k) and s(k): sums over all parties, each from the first side where it is open. */
static void join_shares(const struct pair *p, uint32_t *b, uint32_t *d, uint32_t *s)
{
    uint32_t m = p->key.m, q = p->key.q;
    memset(b, 0, 4 * m);
    memset(d, 0, 4 * m);
    memset(s, 0, 4 * m);
    for (uint32_t i = 0; i < p->key.N; i++) {
        const struct execution *x = &p->side[is_open(p, 0, i) ? 0 : 1].x;
        for (uint32_t k = 0; k < m; k++) {
            b[k] = plus(b[k], shares_b(x, i)[k], q);
            d[k] = plus(d[k], shares_d(x, i)[k], q);
            s[k] = plus(s[k], shares_s(x, i)[k], q);
        }
    }
}

/* u = t - A s, then v(k) = s(k)^2 - s(k). */
static void list_errors(const struct key *key, const uint32_t *at, const uint32_t *s, uint32_t *uv)
{
    uint32_t n = key->n, m = key->m, q = key->q;
    for (uint32_t l = 0; l < n; l++) {
        uint32_t sum = 0;
        for (uint32_t k = 0; k < m; k++)
            sum = reduce(sum + (uint64_t)at[m * l + k] * s[k], q);
        uv[l] = minus(at[n * m + l], sum, q);
    }
    for (uint32_t k = 0; k < m; k++)
        uv[n + k] = minus(times(s[k], s[k], q), s[k], q);
}

/* A s = t and s is binary. */
static int is_witness(const struct key *key, const uint32_t *s, const uint32_t *uv)
{
    for (uint32_t l = 0; l < key->n; l++)
        if (uv[l] != 0)
            return 0;
    for (uint32_t k = 0; k < key->m; k++)
        if (s[k] > 1)
            return 0;
    return 1;
}

/* Findings 2, 3 and 4. */
static int64_t read_witness(const struct pair *p, const uint32_t *at, uint8_t *secret, uint32_t *uv,
                            uint32_t *answer)
{
    const struct key *key = &p->key;
    uint32_t b[MAX_COLUMNS], d[MAX_COLUMNS], s[MAX_COLUMNS], errors[MAX_ROWS + MAX_COLUMNS];
    join_shares(p, b, d, s);
    list_errors(key, at, s, errors);
    if (is_witness(key, s, errors)) {
        for (uint32_t k = 0; k < key->m; k++)
            secret[k] = (uint8_t)s[k];
        return WITNESS;
    }
    answer[ANSWER_E] = p->e + 1;
    for (uint32_t k = 0; k < key->m; k++)
        if (d[k] != times(b[k], b[k], key->q)) {
            answer[ANSWER_K] = k + 1;
            answer[ANSWER_B] = b[k];
            answer[ANSWER_D] = d[k];
            return WRONG_SQUARE;
        }
    memcpy(uv, errors, 4 * (key->n + key->m));
    return CANCELLED_ERRORS;
}

int64_t ref_pair_lent(const uint8_t *key_bytes, size_t key_len, const uint8_t *run1, size_t run1_len,
                      const uint8_t *run2, size_t run2_len, uint8_t *hash1, size_t hash1_len,
                      uint8_t *hash2, size_t hash2_len, uint8_t *secret, size_t secret_len,
                      uint32_t *uv, size_t uv_len, uint32_t *answer, size_t answer_len,
                      const struct lent *lent)
{
    struct pair p;
    uint32_t refused = read_key(&p.key, key_bytes, key_len);
    if (refused)
        return -(int64_t)refused;
    if (!lists_suffice(&p.key, lent) || hash1_len < MAX_HASH_INPUT || hash2_len < MAX_HASH_INPUT
        || secret_len < p.key.m || uv_len < p.key.n + p.key.m || answer_len < ANSWER_WORDS)
        return -(int64_t)LENT_SHORT;
    refused = pair_start(&p, run1, run1_len, run2, run2_len, lent);
    if (refused)
        return -(int64_t)refused;
    memset(answer, 0, 4 * ANSWER_WORDS);
    if (find_collision(&p, hash1, hash2, answer))
        return COLLISION;
    return read_witness(&p, lent->at, secret, uv, answer);
}

int64_t ref_pair(const uint8_t *key, size_t key_len, const uint8_t *run1, size_t run1_len,
                 const uint8_t *run2, size_t run2_len, uint8_t *hash1, size_t hash1_len,
                 uint8_t *hash2, size_t hash2_len, uint8_t *secret, size_t secret_len,
                 uint32_t *uv, size_t uv_len, uint32_t *answer, size_t answer_len)
{
    uint32_t work[MAX_WORK], at[MAX_AT];
    struct lent lent = {work, MAX_WORK, at, MAX_AT};
    return ref_pair_lent(key, key_len, run1, run1_len, run2, run2_len, hash1, hash1_len,
                         hash2, hash2_len, secret, secret_len, uv, uv_len, answer, answer_len, &lent);
}
