/* Gives the same inputs to every implementation and compares answers and all output bytes.
 *
 *     compare [samples [seed]]
 *     compare overlong read|write    gives the last implementation a length that is one too long, for a sanitizer to end it
 *
 * First come honest keys over all q and N, odd and even m and M up to 32. A sample is then a key with two transcripts, honest, cheating or
 * forged; from each, damaged inputs for every call are made. Every list stands in a block of exactly its length, for a sanitizer to see a
 * byte too far. What an answer claims is checked too: honest transcripts are accepted, a message touches no byte but its own, a
 * finding is given exactly when it must be, and is true. */
#include "calls.h"
#include "samples.h"

#include <stdio.h>
#include <stdlib.h>
#include <string.h>

static const struct calls *const table[] = {
    &reference_calls,
#ifdef BADGE
    &badge_calls,
#endif
};

enum { IMPLEMENTATIONS = sizeof table / sizeof table[0], FILL = 0xa5, DAMAGED = 20 };

static uint64_t seed = 1;
static unsigned long verdicts[24], messages[24], pairs[24], findings[5], samples_of[5];

static void fail(const char *what)
{
    printf("failed: %s\n", what);
    exit(1);
}

static void check(int right, const char *what)
{
    if (!right)
        fail(what);
}

/* Blocks of exactly their length; an empty list is a null pointer. */

static struct list block(size_t length)
{
    struct list l = {length > 0 ? malloc(length) : NULL, length};
    check(l.at || length == 0, "no memory");
    if (length > 0)
        memset(l.at, FILL, length);
    return l;
}

static struct number_list number_block(size_t length)
{
    return (struct number_list){(uint32_t *)block(4 * length).at, length};
}

static void check_filled(const void *at, size_t start, size_t end, const char *what)
{
    for (size_t j = start; j < end; j++)
        check(((const uint8_t *)at)[j] == FILL, what);
}

/* An input with room to be lengthened. */
struct bytes {
    uint8_t at[MAX_RUN + 64];
    size_t length;
};

static void set(struct bytes *b, const uint8_t *data, size_t length)
{
    memcpy(b->at, data, length);
    b->length = length;
}

static void copy(struct bytes *b, const struct bytes *from) { set(b, from->at, from->length); }

static void damage_bytes(struct bytes *b) { damage(b->at, &b->length, sizeof b->at, &seed); }

/* One change, or one behind the header and now and then another. */
static void damage_run(struct bytes *run, const struct bytes *key)
{
    if (random_below(&seed, 3) == 0) {
        damage_parts(run->at, &run->length, sizeof run->at, load_number(key->at), &seed);
        if (random_below(&seed, 2) == 0)
            return;
    }
    damage_bytes(run);
}

static struct list exact(const struct bytes *b)
{
    struct list l = block(b->length);
    if (b->length > 0)
        memcpy(l.at, b->at, b->length);
    return l;
}

/* Work lists for a call: none, so that it takes its own, or two of the length that the key asks for, and now and then one less. */
struct work {
    struct lent lists;
    const struct lent *lent;
    int enough;
};

static void lend(struct work *w, const struct bytes *key)
{
    struct key k;
    int read = read_key(&k, key->at, key->length) == 0;
    *w = (struct work){.enough = 1};
    if (random_below(&seed, 2) == 0)
        return;
    size_t at = read ? entry_count(&k) : random_below(&seed, 9), work = read ? work_count(&k) : random_below(&seed, 9);
    if (read && random_below(&seed, 8) == 0) {
        w->enough = 0;
        *(random_below(&seed, 2) == 0 ? &at : &work) -= 1;
    }
    w->lists = (struct lent){number_block(work).at, work, number_block(at).at, at};
    w->lent = &w->lists;
}

static void give_back(struct work *w)
{
    free(w->lists.work);
    free(w->lists.at);
}

static uint32_t judge_with(const struct bytes *key, const struct bytes *run, const struct work *w)
{
    struct list k = exact(key), r = exact(run);
    uint32_t verdict = table[0]->judge(k, r, w->lent);
    for (int j = 1; j < IMPLEMENTATIONS; j++)
        check(table[j]->judge(k, r, w->lent) == verdict, "verdicts differ");
    free(k.at);
    free(r.at);
    check(verdict <= PSI_WRONG && verdict != INPUT_LENGTH && (verdict == LENT_SHORT) == !w->enough, "verdict out of range");
    verdicts[verdict]++;
    return verdict;
}

static uint32_t judge(const struct bytes *key, const struct bytes *run)
{
    struct work w;
    lend(&w, key);
    uint32_t verdict = judge_with(key, run, &w);
    give_back(&w);
    return verdict;
}

static uint32_t plain_verdict(const struct bytes *key, const struct bytes *run)
{
    return judge_with(key, run, &(struct work){.enough = 1});
}

static int64_t message(int number, const struct bytes *in, size_t out_len, uint64_t place)
{
    struct list list[INPUTS], out[IMPLEMENTATIONS];
    struct work w;
    int64_t length = 0;
    lend(&w, &in[IN_KEY]);
    for (int j = 0; j < INPUTS; j++)
        list[j] = exact(&in[j]);
    for (int j = 0; j < IMPLEMENTATIONS; j++) {
        out[j] = block(out_len);
        int64_t answer = table[j]->message(number, list, out[j], place, w.lent);
        check(j == 0 || answer == length, "messages' lengths differ");
        check(out_len == 0 || memcmp(out[j].at, out[0].at, out_len) == 0, "messages differ");
        length = answer;
    }
    check(w.enough || length < 0, "a message with too short a work list");
    if (length < 0) {
        check_filled(out[0].at, 0, out_len, "a refused message touched its output");
        messages[-length]++;
    } else {
        check_filled(out[0].at, 0, place, "bytes before the message");
        check_filled(out[0].at, place + (uint64_t)length, out_len, "bytes after the message");
        messages[0]++;
    }
    for (int j = 0; j < INPUTS; j++)
        free(list[j].at);
    for (int j = 0; j < IMPLEMENTATIONS; j++)
        free(out[j].at);
    give_back(&w);
    return w.enough ? length : 0;
}

/* The pair reader's outputs, some longer than asked for. */

static struct pair_outputs lend_outputs(const struct bytes *key, uint32_t more)
{
    struct key k;
    int read = read_key(&k, key->at, key->length) == 0;
    uint32_t m = read ? k.m : 0, n = read ? k.n : 0;
    return (struct pair_outputs){block(MAX_HASH_INPUT + more), block(MAX_HASH_INPUT + more), block(m + more),
                                 number_block(n + m + more), number_block(ANSWER_WORDS + more)};
}

static void free_outputs(struct pair_outputs *p)
{
    free(p->hash1.at);
    free(p->hash2.at);
    free(p->secret.at);
    free(p->uv.at);
    free(p->answer.at);
}

static void check_equal(const struct pair_outputs *p, const struct pair_outputs *r)
{
    int same = memcmp(p->hash1.at, r->hash1.at, p->hash1.length) == 0 && memcmp(p->hash2.at, r->hash2.at, p->hash2.length) == 0
        && memcmp(p->answer.at, r->answer.at, 4 * p->answer.length) == 0
        && (p->secret.length == 0 || memcmp(p->secret.at, r->secret.at, p->secret.length) == 0)
        && (p->uv.length == 0 || memcmp(p->uv.at, r->uv.at, 4 * p->uv.length) == 0);
    check(same, "pair outputs differ");
}

/* From these bytes on, nothing was touched. */
static void check_rest(const struct pair_outputs *p, size_t hash, size_t secret, size_t uv, size_t answer)
{
    check_filled(p->hash1.at, hash, p->hash1.length, "hash1 past its bytes");
    check_filled(p->hash2.at, hash, p->hash2.length, "hash2 past its bytes");
    check_filled(p->secret.at, secret, p->secret.length, "secret past its bytes");
    check_filled(p->uv.at, 4 * uv, 4 * p->uv.length, "uv past its numbers");
    check_filled(p->answer.at, 4 * answer, 4 * p->answer.length, "answer past its words");
}

/* b(k) and d(k) are not a square pair. */
static void check_wrong_square(const struct pair_outputs *p, const struct key *key)
{
    uint32_t b = p->answer.at[ANSWER_B], d = p->answer.at[ANSWER_D];
    check(b < key->q && d < key->q && times(b, b, key->q) != d, "finding 3 is not true");
}

/* Two different inputs with one hash. */
static void check_collision(const struct pair_outputs *p, size_t length)
{
    uint8_t one[32], two[32];
    sha256(p->hash1.at, length, one);
    sha256(p->hash2.at, length, two);
    check(memcmp(p->hash1.at, p->hash2.at, length) != 0 && memcmp(one, two, 32) == 0, "finding 1 is not true");
}

static void check_witness(const struct pair_outputs *p, const struct key *key)
{
    for (uint32_t l = 0; l < key->n; l++) {
        uint64_t sum = 0;
        for (uint32_t k = 0; k < key->m; k++) {
            check(p->secret.at[k] <= 1, "finding 2 is not binary");
            sum += (uint64_t)p->secret.at[k] * load_number(key->entries + 4 * (key->m * l + k));
        }
        check(reduce(sum, key->q) == load_number(key->entries + 4 * (key->n * key->m + l)), "finding 2 is not true");
    }
}

static void check_errors(const struct pair_outputs *p, const struct key *key, const uint8_t *L)
{
    struct execution x = {.key = key};
    uint32_t sum = 0, some = 0;
    draw_coefficients(&x, L, p->answer.at[ANSWER_E] - 1);
    for (uint32_t j = 0; j < key->n + key->m; j++) {
        sum = reduce(sum + (uint64_t)x.coefficient[j] * p->uv.at[j], key->q);
        some |= p->uv.at[j];
    }
    check(sum == 0 && some != 0, "finding 4 is not true");
}

static void check_finding(const struct pair_outputs *p, int64_t finding, const struct bytes *key, const uint8_t *run)
{
    struct key read;
    size_t secret_used = 0, uv_used = 0, hash_used = 0;
    check(read_key(&read, key->at, key->length) == 0, "a finding for a refused key");
    if (finding == WITNESS) {
        check_witness(p, &read);
        secret_used = read.m;
    } else if (finding == WRONG_SQUARE) {
        check_wrong_square(p, &read);
    } else if (finding == CANCELLED_ERRORS) {
        check_errors(p, &read, run + load_number(run + 24));
        uv_used = read.n + read.m;
    } else {
        hash_used = p->answer.at[ANSWER_LENGTH];
        check_collision(p, hash_used);
    }
    check_rest(p, hash_used, secret_used, uv_used, ANSWER_WORDS);
    findings[finding]++;
}

/* The refusal that document 01 asks for where every list is long enough, or 0. */
static int64_t expected_refusal(const struct bytes *key, const struct bytes *run1, const struct bytes *run2)
{
    uint32_t verdict = plain_verdict(key, run1);
    if (verdict >= KEY_SHORT && verdict <= KEY_ENTRY)
        return verdict;
    if (verdict)
        return FIRST_REFUSED;
    if (plain_verdict(key, run2))
        return SECOND_REFUSED;
    size_t hidden = load_number(run1->at + 40), count = load_number(run1->at + 44);
    if (memcmp(run1->at + 56, run2->at + 56, hidden - 56) != 0)
        return PARTS_DIFFER;
    return memcmp(run1->at + hidden, run2->at + hidden, count) == 0 ? HIDDEN_EQUAL : 0;
}

/* Makes one of the outputs too short, now and then. */
static int shorten(struct pair_outputs *p, int which)
{
    switch (which) {
    case 0: p->hash1.length = MAX_HASH_INPUT - 1; return 1;
    case 1: p->hash2.length = MAX_HASH_INPUT - 1; return 1;
    case 2: p->answer.length = ANSWER_WORDS - 1; return 1;
    default: return 0;
    }
}

static int64_t pair(const struct bytes *key, const struct bytes *run1, const struct bytes *run2)
{
    struct list k = exact(key), one = exact(run1), two = exact(run2);
    struct pair_outputs p[IMPLEMENTATIONS];
    struct work w;
    int64_t finding = 0, refusal = expected_refusal(key, run1, run2);
    int which = (int)random_below(&seed, 32), more = (int)random_below(&seed, 2) * 3, shortened = 0;
    lend(&w, key);
    for (int j = 0; j < IMPLEMENTATIONS; j++) {
        p[j] = lend_outputs(key, (uint32_t)more);
        shortened = shorten(&p[j], which);
        int64_t answer = table[j]->pair(k, one, two, &p[j], w.lent);
        check(j == 0 || answer == finding, "pair readings differ");
        check_equal(&p[j], &p[0]);
        finding = answer;
    }
    if ((shortened || !w.enough) && (refusal == 0 || refusal > KEY_ENTRY))
        refusal = LENT_SHORT;
    check(refusal ? finding == -refusal : finding >= 1 && finding <= 4, "a finding or a refusal out of place");
    if (finding < 0) {
        check_rest(&p[0], 0, 0, 0, 0);
        pairs[-finding]++;
    } else {
        check_finding(&p[0], finding, key, run1->at);
        pairs[0]++;
    }
    for (int j = 0; j < IMPLEMENTATIONS; j++)
        free_outputs(&p[j]);
    free(k.at);
    free(one.at);
    free(two.at);
    give_back(&w);
    return finding;
}

static const uint32_t moduli[3] = {257, 65537, 2147483647};

/* Small keys, a few of middle size, and once in a while the largest. */
static void choose_record(uint32_t record[6])
{
    static const uint32_t largest[6] = {2147483647, 32, 128, 32, 32, 16};
    uint32_t wide = random_below(&seed, 8) == 0;
    record[0] = moduli[random_below(&seed, 3)];
    record[2] = 2 + random_below(&seed, wide ? 31 : 6);
    record[1] = 1 + random_below(&seed, record[2] - 1);
    record[3] = 2u << random_below(&seed, wide ? 5 : 3);
    record[4] = 2 + random_below(&seed, wide ? 31 : 4);
    record[5] = 1 + random_below(&seed, record[4] - 1);
    if (random_below(&seed, 2000) == 0)
        memcpy(record, largest, sizeof largest);
}

static void compare_judges(const struct bytes *key, const struct bytes *run, int count)
{
    static struct bytes damaged;
    for (int j = 0; j < count; j++) {
        copy(&damaged, run);
        damage_run(&damaged, key);
        if (random_below(&seed, 3) == 0)
            damage_bytes(&damaged);
        judge(key, &damaged);
        copy(&damaged, key);
        damage_bytes(&damaged);
        judge(&damaged, run);
    }
}

static void compare_pairs(const struct bytes *key, const struct bytes *run, int count)
{
    static struct bytes damaged;
    pair(key, &run[1], &run[0]);
    pair(key, &run[0], &run[0]);
    for (int j = 0; j < count; j++) {
        uint32_t which = random_below(&seed, 2);
        copy(&damaged, &run[which]);
        damage_run(&damaged, key);
        pair(key, which ? &run[0] : &damaged, which ? &damaged : &run[1]);
    }
    copy(&damaged, key);
    damage_bytes(&damaged);
    pair(&damaged, &run[0], &run[1]);
}

static const int numbers[4] = {1, 3, 5, 7};

static void set_inputs(struct bytes *in, const struct sample *s)
{
    set(&in[IN_KEY], s->key, s->key_len);
    set(&in[IN_SEEDS], s->seeds, 16 * s->read.M);
    set(&in[IN_SECRET], s->secret, s->read.m);
    set(&in[IN_E], s->E, s->read.tau);
    set(&in[IN_K], s->K, 16);
    set(&in[IN_L], s->L, 16);
    set(&in[IN_HIDDEN], s->hidden[0], s->read.kept);
}

/* An honest message at places with room for it and without. */
static void compare_places(int number, const struct bytes *in)
{
    int64_t length = 0, answer;
    while (length == 0)
        length = message(number, in, MAX_RUN, 56);
    check(length > 0, "an honest message was refused");
    answer = message(number, in, (size_t)length + 7, 7);
    check(answer == length || answer == 0, "a message that fits");
    answer = message(number, in, (size_t)length + 6, 7);
    check(answer == -LENT_SHORT || answer == 0, "a message that does not fit");
    answer = message(number, in, (size_t)length, UINT64_MAX - random_below(&seed, 9));
    check(answer == -LENT_SHORT || answer == 0, "a place past the end");
}

static void compare_messages(const struct sample *s, int count)
{
    static struct bytes in[INPUTS], damaged[INPUTS];
    set_inputs(in, s);
    for (int j = 0; j < 4; j++)
        compare_places(numbers[j], in);
    for (int j = 0; j < count; j++) {
        for (int i = 0; i < INPUTS; i++)
            copy(&damaged[i], &in[i]);
        for (uint32_t rounds = 1 + random_below(&seed, 2); rounds > 0; rounds--)
            damage_bytes(&damaged[random_below(&seed, INPUTS)]);
        size_t out_len = random_below(&seed, 4) == 0 ? random_below(&seed, 300) : 20000;
        message(numbers[random_below(&seed, 4)], damaged, out_len, random_below(&seed, 20));
    }
}

/* Both transcripts are accepted, and the pair reader gives the finding, if one is named. */
static void compare_runs(const struct sample *s, int64_t expected, int damages)
{
    static struct bytes key, run[2];
    int64_t finding = -LENT_SHORT;
    set(&key, s->key, s->key_len);
    for (int j = 0; j < 2; j++) {
        set(&run[j], s->run[j], s->run_len[j]);
        check(plain_verdict(&key, &run[j]) == ACCEPTED, "an honest or well made transcript was refused");
    }
    while (finding == -LENT_SHORT)
        finding = pair(&key, &run[0], &run[1]);
    check(expected == 0 || finding == expected, "another finding than the one that was prepared");
    compare_judges(&key, &run[0], damages);
    compare_pairs(&key, run, damages / 2);
}

/* Another run of the badge that knows the secret, beside a transcript of the same key. */
static void compare_other_run(const struct sample *s)
{
    static struct sample other;
    static struct bytes key, run[2];
    int64_t answer;
    other = *s;
    random_bytes(&seed, other.L, 16);
    make_honest(&other);
    set(&key, s->key, s->key_len);
    set(&run[0], s->run[0], s->run_len[0]);
    set(&run[1], other.run[0], other.run_len[0]);
    answer = pair(&key, &run[0], &run[1]);
    check(answer == -PARTS_DIFFER || answer == -LENT_SHORT, "transcripts of two runs");
}

/* Honest messages and transcripts over all q and N, odd and even m, M up to 32. */
static void compare_honest(void)
{
    static const uint32_t columns[4] = {2, 3, 7, 12}, executions[4] = {2, 3, 17, 32};
    static struct sample s;
    for (int j = 0; j < 3 * 5 * 4; j++) {
        uint32_t m = columns[j % 4], M = executions[(j / 4 + j) % 4];
        uint32_t record[6] = {moduli[j % 3], 1 + random_below(&seed, m - 1), m, 2u << j % 5, M, 1 + random_below(&seed, M - 1)};
        make_inputs(&s, record, &seed);
        make_honest(&s);
        compare_messages(&s, 0);
        compare_runs(&s, WITNESS, 0);
        samples_of[0]++;
    }
}

/* Kind 0 is honest, kind 4 forged, the others cheat. */
static void compare_sample(void)
{
    static struct sample s;
    uint32_t record[6], kind = random_below(&seed, 5);
    choose_record(record);
    if (kind == 3)
        record[0] = 257;
    make_inputs(&s, record, &seed);
    if (kind == 0) {
        for (uint32_t j = s.pair + 1; j < s.read.kept; j++) /* an honest pair may part at more places */
            if (random_below(&seed, 3) == 0)
                s.hidden[1][j] = (uint8_t)(1 + random_below(&seed, s.read.N));
        make_honest(&s);
    } else {
        make_cheating(&s, (enum cheat)(kind - 1), &seed);
    }
    samples_of[kind]++;
    compare_runs(&s, kind == 0 || kind == 2 ? WITNESS : 0, record[2] == 128 ? 2 : DAMAGED);
    compare_messages(&s, record[2] == 128 ? 2 : DAMAGED);
    compare_other_run(&s);
}

/* The judge reads a key, or message 1 writes an output, one byte shorter than it is told. */
static void overlong(int write)
{
    static const uint32_t record[6] = {257, 1, 2, 2, 2, 1};
    static struct sample s;
    static struct bytes in[INPUTS];
    struct list list[INPUTS], out = block(31);
    const struct calls *last = table[IMPLEMENTATIONS - 1];
    make_inputs(&s, record, &seed);
    set_inputs(in, &s);
    in[IN_KEY].length -= !write;
    for (int j = 0; j < INPUTS; j++)
        list[j] = exact(&in[j]);
    list[IN_KEY].length += !write;
    out.length = 32;
    if (write)
        last->message(1, list, out, 0, NULL);
    else
        last->judge(list[IN_KEY], list[IN_SEEDS], NULL);
}

static unsigned long print_counts(const char *name, const unsigned long *counts, int size)
{
    unsigned long sum = 0;
    printf("%s:", name);
    for (int j = 0; j < size; j++) {
        if (counts[j] > 0)
            printf(" %d (%lu)", j, counts[j]);
        sum += counts[j];
    }
    printf("\n");
    return sum;
}

int main(int argc, char **argv)
{
    unsigned long count = argc > 1 ? strtoul(argv[1], NULL, 10) : 1000, sums[3];
    if (argc > 2 && strcmp(argv[1], "overlong") == 0) {
        overlong(strcmp(argv[2], "write") == 0);
        return 0;
    }
    if (argc > 2)
        seed = strtoull(argv[2], NULL, 10) | 1;
    compare_honest();
    for (unsigned long j = 0; j < count; j++)
        compare_sample();
    for (int j = 0; j < IMPLEMENTATIONS; j++)
        printf("%s%s", j ? ", " : "implementations: ", table[j]->name);
    printf("\n");
    print_counts("samples: honest 0, cheating 1 to 3, forged 4", samples_of, 5);
    sums[0] = print_counts("verdicts, 0 accepted", verdicts, 24);
    sums[1] = print_counts("messages, 0 written", messages, 24);
    sums[2] = print_counts("pairs, 0 a finding", pairs, 24);
    print_counts("findings", findings, 5);
    printf("%lu verdicts, %lu messages, %lu pairs: %s\n", sums[0], sums[1], sums[2],
           IMPLEMENTATIONS > 1 ? "no difference" : "nothing to compare with, all claims true");
    return 0;
}
