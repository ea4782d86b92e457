/* Keys, inputs and transcripts made from a deterministic generator. */
#include "samples.h"

#include <string.h>

uint64_t random_word(uint64_t *state)
{
    *state ^= *state << 13;
    *state ^= *state >> 7;
    *state ^= *state << 17;
    return *state * 0x2545f4914f6cdd1d;
}

uint32_t random_below(uint64_t *state, uint32_t limit) { return (uint32_t)((random_word(state) >> 32) % limit); }

void random_bytes(uint64_t *state, uint8_t *p, size_t length)
{
    for (size_t j = 0; j < length; j++)
        p[j] = (uint8_t)(random_word(state) >> 56);
}

static void make_key(struct sample *s, const uint32_t record[6], uint64_t *state)
{
    uint32_t q = record[0], n = record[1], m = record[2];
    store_numbers(s->key, record, 6);
    s->key_len = 24 + 4 * (size_t)n * (m + 1);
    for (uint32_t k = 0; k < m; k++)
        s->secret[k] = (uint8_t)random_below(state, 2);
    for (uint32_t l = 0; l < n; l++) {
        uint32_t t = 0;
        for (uint32_t k = 0; k < m; k++) {
            uint32_t entry = random_below(state, q);
            store_number(s->key + 24 + 4 * (m * l + k), entry);
            t = s->secret[k] ? plus(t, entry, q) : t;
        }
        store_number(s->key + 24 + 4 * (n * m + l), t);
    }
    read_key(&s->read, s->key, s->key_len);
}

/* tau of the M executions, each set equally likely. */
static void choose_opened(struct sample *s, uint64_t *state)
{
    uint32_t chosen = 0;
    for (uint32_t e = 0; e < s->read.M; e++)
        if (random_below(state, s->read.M - e) < s->read.tau - chosen)
            s->E[chosen++] = (uint8_t)(e + 1);
}

static void choose_hidden(struct sample *s, uint64_t *state)
{
    uint32_t N = s->read.N;
    s->pair = random_below(state, s->read.kept);
    for (uint32_t j = 0; j < s->read.kept; j++)
        s->hidden[0][j] = s->hidden[1][j] = (uint8_t)(random_below(state, N) + 1);
    s->hidden[1][s->pair] = (uint8_t)((s->hidden[0][s->pair] + random_below(state, N - 1)) % N + 1);
}

void make_inputs(struct sample *s, const uint32_t record[6], uint64_t *state)
{
    make_key(s, record, state);
    random_bytes(state, s->seeds, 16 * s->read.M);
    random_bytes(state, s->K, 16);
    random_bytes(state, s->L, 16);
    choose_opened(s, state);
    choose_hidden(s, state);
}

/* Writes pair p of the head for a part of that length; answers its end. */
static size_t end_part(uint8_t *run, int p, size_t offset, size_t length)
{
    store_number(run + 8 * p, (uint32_t)offset);
    store_number(run + 8 * p + 4, (uint32_t)length);
    return offset + length;
}

static size_t put_part(uint8_t *run, int p, size_t offset, const uint8_t *bytes, size_t length)
{
    memcpy(run + offset, bytes, length);
    return end_part(run, p, offset, length);
}

void make_honest(struct sample *s)
{
    const struct key *key = &s->read;
    for (int which = 0; which < 2; which++) {
        uint8_t *run = s->run[which];
        size_t at = 56;
#define SECRET s->key, s->key_len, s->seeds, 16 * key->M, s->secret, key->m, s->E, key->tau, s->K, 16
        at = end_part(run, 0, at, (size_t)ref_message_1(s->key, s->key_len, s->seeds, 16 * key->M, run, MAX_RUN, at));
        at = put_part(run, 1, at, s->E, key->tau);
        at = end_part(run, 2, at, (size_t)ref_message_3(SECRET, run, MAX_RUN, at));
        at = put_part(run, 3, at, s->L, 16);
        at = end_part(run, 4, at, (size_t)ref_message_5(SECRET, s->L, 16, run, MAX_RUN, at));
        at = put_part(run, 5, at, s->hidden[which], key->kept);
        at = end_part(run, 6, at, (size_t)ref_message_7(SECRET, s->L, 16, s->hidden[which], key->kept, run, MAX_RUN, at));
#undef SECRET
        s->run_len[which] = at;
    }
}

static uint32_t inverse(uint32_t x, uint32_t q)
{
    uint32_t result = 1;
    for (uint32_t power = q - 2; power > 0; power /= 2, x = times(x, x, q))
        if (power % 2 == 1)
            result = times(result, x, q);
    return result;
}

static uint32_t sum_of_outputs(const struct execution *x)
{
    uint64_t sum = 0;
    for (uint32_t i = 0; i < x->key->N; i++)
        sum += x->o[i];
    return reduce(sum, x->key->q);
}

/* Shares the numbers as the secret and computes alpha and all outputs. */
static void run_with(struct execution *x, const uint32_t *secret)
{
    uint32_t N = x->key->N, q = x->key->q;
    for (uint32_t k = 0; k < x->key->m; k++) {
        uint64_t others = 0;
        for (uint32_t i = 0; i + 1 < N; i++)
            others += shares_s(x, i)[k];
        shares_s(x, N - 1)[k] = minus(secret[k], reduce(others, q), q);
    }
    mask_secret(x, NO_PARTY);
    sum_alpha(x);
    compute_outputs(x, NO_PARTY);
}

/* Adds to d(k) of party N, and so gamma(k) times that to its output. */
static void spoil_square(struct execution *x, uint32_t k, uint32_t error)
{
    uint32_t last = x->key->N - 1, q = x->key->q, gamma = x->coefficient[x->key->n + k];
    shares_d(x, last)[k] = plus(shares_d(x, last)[k], error, q);
    x->o[last] = plus(x->o[last], times(gamma, error, q), q);
}

static void cancel_by_square(struct execution *x)
{
    uint32_t q = x->key->q;
    for (uint32_t k = 0; k < x->key->m; k++) {
        uint32_t gamma = x->coefficient[x->key->n + k];
        if (gamma != 0) {
            spoil_square(x, k, minus(0, times(sum_of_outputs(x), inverse(gamma, q), q), q));
            return;
        }
    }
}

static void random_secret(const struct key *key, uint32_t *secret, uint64_t *state)
{
    for (uint32_t k = 0; k < key->m; k++)
        secret[k] = random_below(state, key->q);
}

/* The execution where the hidden parties differ: its outputs add up to 0 as they are. */
static void cheat_openly(struct execution *x, const uint32_t *right, enum cheat cheat, uint64_t *state)
{
    uint32_t secret[MAX_COLUMNS];
    random_secret(x->key, secret, state);
    run_with(x, cheat == CHEAT_LUCKY ? right : secret);
    if (cheat == CHEAT_LUCKY)
        spoil_square(x, x->key->m - 1, 1);
    if (cheat != CHEAT_ERRORS) {
        cancel_by_square(x);
        return;
    }
    while (sum_of_outputs(x) != 0) {
        random_secret(x->key, secret, state);
        run_with(x, secret);
    }
}

/* Any other: a wrong secret, its error behind the hidden party. */
static void cheat_hidden(struct execution *x, uint32_t hidden, uint64_t *state)
{
    uint32_t secret[MAX_COLUMNS], q = x->key->q;
    random_secret(x->key, secret, state);
    run_with(x, secret);
    x->o[hidden] = minus(x->o[hidden], sum_of_outputs(x), q);
}

/* Leaves, shares and coefficients of an execution by its master seed. */
static void deal(struct execution *x, const struct sample *s, uint32_t e)
{
    tree_leaves(s->seeds + 16 * e, x->key->N, x->leaf);
    for (uint32_t i = 0; i < x->key->N; i++)
        expand_party(x, i, WANT_B | WANT_D | WANT_S);
    last_d_from_square(x);
    draw_coefficients(x, s->L, e);
}

/* Kept execution j by a badge that cheats; writes both openings and moves their ends. */
static void cheat_kept(struct execution *x, const struct sample *s, uint32_t e, uint32_t j, enum cheat cheat, uint8_t *end[2],
                       uint64_t *state)
{
    uint32_t right[MAX_COLUMNS];
    for (uint32_t k = 0; k < x->key->m; k++)
        right[k] = s->secret[k];
    deal(x, s, e);
    if (j == s->pair)
        cheat_openly(x, right, cheat, state);
    else
        cheat_hidden(x, s->hidden[0][j] - 1u, state);
    for (uint32_t i = 0; i < x->key->N; i++)
        commit_party(x, i);
    for (int which = 0; which < 2; which++)
        end[which] = put_opening(x, s->seeds + 16 * e, s->hidden[which][j] - 1u, end[which]);
}

/* Kept execution j from random bytes, the o of the hidden party fitted; one opening for both transcripts. */
static void forge_kept(struct execution *x, const struct sample *s, uint32_t e, uint32_t j, uint8_t *end[2], uint64_t *state)
{
    const struct key *key = x->key;
    uint32_t hidden = s->hidden[0][j] - 1u, length = opening_length(key, hidden);
    uint8_t *seeds = end[0], *alpha = seeds + 16 * key->depth + 32, *o = alpha + 4 * key->m, g[16], w[16];
    struct transcript run = {.part[3] = s->L, .part[6] = s->K};
    random_bytes(state, seeds, length);
    for (uint8_t *number = alpha; number < seeds + length; number += 4)
        store_number(number, random_below(state, key->q));
    run.opening[j] = (struct opening){.e = e, .hidden = hidden, .seeds = seeds, .Gamma = alpha - 32, .alpha = alpha, .o = o};
    if (hidden + 1 < key->N) {
        run.opening[j].d = o + 4;
        run.opening[j].s = o + 4 + 4 * key->m;
    }
    replay(x, &run, j, g, w);
    x->o[hidden] = minus(x->o[hidden], sum_of_outputs(x), key->q);
    store_number(o, x->o[hidden]);
    memcpy(end[1], seeds, length);
    end[0] += length;
    end[1] += length;
}

/* The parts from what the executions gave. */
static void put_parts(struct sample *s, const struct commitments *c, const uint8_t (*Omega)[32], int which,
                      size_t opened)
{
    const struct key *key = &s->read;
    uint8_t *run = s->run[which], hash[32], part_3[16 * MAX_EXECUTIONS + 32 * MAX_EXECUTIONS + 32], *p = part_3;
    size_t at = 56;
    for (uint32_t j = 0; j < key->tau; j++, p += 16)
        memcpy(p, s->seeds + 16 * (s->E[j] - 1), 16);
    for (uint32_t j = 0; j < key->kept; j++, p += 32)
        memcpy(p, Omega[j], 32);
    sha256(c->Pi[0], 32 * key->kept, p);
    sha256(c->h[0], 32 * key->M, hash);
    at = put_part(run, 0, at, hash, 32);
    at = put_part(run, 1, at, s->E, key->tau);
    at = put_part(run, 2, at, part_3, part_3_length(key));
    at = put_part(run, 3, at, s->L, 16);
    sha256(c->Psi[0], 32 * key->kept, hash);
    at = put_part(run, 4, at, hash, 32);
    at = put_part(run, 5, at, s->hidden[which], key->kept);
    s->run_len[which] = end_part(run, 6, at, opened);
}

void make_cheating(struct sample *s, enum cheat cheat, uint64_t *state)
{
    static uint32_t work[MAX_WORK], at[MAX_AT];
    const struct key *key = &s->read;
    static struct execution x;
    struct commitments c;
    uint8_t Omega[MAX_EXECUTIONS][32], mask[16], *end[2];
    uint32_t kept[MAX_EXECUTIONS];
    size_t start = 56 + 32 + key->tau + part_3_length(key) + 16 + 32 + key->kept;
    load_numbers(at, key->entries, entry_count(key));
    execution_start(&x, key, work, at);
    list_kept(key, s->E, kept);
    for (int which = 0; which < 2; which++) {
        memcpy(s->run[which] + start, s->K, 16);
        end[which] = s->run[which] + start + 16;
    }
    for (uint32_t j = 0; j < key->tau; j++)
        hash_from_master(&x, s->seeds + 16 * (s->E[j] - 1), c.h[s->E[j] - 1]);
    for (uint32_t j = 0; j < key->kept; j++) {
        if (cheat == CHEAT_FORGED && j != s->pair)
            forge_kept(&x, s, kept[j], j, end, state);
        else
            cheat_kept(&x, s, kept[j], j, cheat, end, state);
        hash_parties(&x, c.h[kept[j]]);
        commit_last_share(&x, Omega[j]);
        stream_block(s->K, 2 * kept[j], mask);
        commit_alpha(&x, mask, c.Pi[j]);
        stream_block(s->K, 2 * kept[j] + 1, mask);
        commit_outputs(&x, mask, c.Psi[j]);
    }
    for (int which = 0; which < 2; which++)
        put_parts(s, &c, (const uint8_t (*)[32])Omega, which, (size_t)(end[which] - s->run[which]) - start);
}

void damage(uint8_t *data, size_t *length, size_t most, uint64_t *state)
{
    size_t place = *length > 0 ? random_below(state, (uint32_t)*length) : 0;
    uint32_t kind = random_below(state, 16);
    if (kind == 0) { /* cut */
        *length = place;
    } else if (kind == 1) { /* lengthened */
        size_t more = random_below(state, 20) + 1;
        more = more < most - *length ? more : most - *length;
        random_bytes(state, data + *length, more);
        *length += more;
    } else if (*length == 0) {
        return;
    } else if (kind < 8) { /* one bit */
        data[place] ^= (uint8_t)(1u << random_below(state, 8));
    } else if (kind < 10) { /* one byte */
        data[place] = (uint8_t)random_below(state, 256);
    } else if (*length >= 4) { /* one word, near its old value or anything */
        uint8_t *p = data + place / 4 * 4;
        if (p + 4 > data + *length)
            return;
        uint32_t word = kind < 14 ? load_number(p) + random_below(state, 5) - 2 : (uint32_t)random_word(state);
        store_number(p, word);
    }
}

void damage_parts(uint8_t *run, size_t *length, size_t most, uint32_t q, uint64_t *state)
{
    uint32_t part_7 = load_number(run + 48), size = load_number(run + 52), kind = random_below(state, 5);
    if (kind < 2) { /* an entry of part 2 or 6, near its limits */
        const uint8_t *pair = run + (kind == 0 ? 8 : 40);
        run[load_number(pair) + random_below(state, load_number(pair + 4))] = (uint8_t)random_below(state, 34);
    } else if (kind == 2) { /* part 7 and the file shorter or longer together */
        uint32_t change = 1 + random_below(state, 20);
        uint32_t other = random_below(state, 2) == 0 && *length + change <= most ? size + change : size - change;
        for (size_t j = *length; j < part_7 + other; j++)
            run[j] = 0;
        *length = part_7 + other;
        store_number(run + 52, other);
    } else { /* a number with the same residue, or one more */
        uint8_t *number = run + part_7 + 16 + 4 * random_below(state, (size - 16) / 4);
        store_number(number, load_number(number) + (kind == 3 ? q : 1));
    }
}
