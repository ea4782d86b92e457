/* A badge, a door and an auditor in one program, to copy from. The badge and the door would talk over a wire; here they share the
 * transcript's buffer. `make demo` runs it. */
#include "badge.h"

#include <stdio.h>
#include <stdlib.h>
#include <string.h>

enum { Q = 65537, ROWS = 4, COLUMNS = 16, PARTIES = 8, EXECUTIONS = 6, OPENED = 3, KEPT = EXECUTIONS - OPENED };

static uint8_t key[24 + 4 * ROWS * (COLUMNS + 1)]; /* both know it */

/* The badge's own. Seeds and K are new for every run. */
static uint8_t secret[COLUMNS], seeds[16 * EXECUTIONS], K[16];

/* The door's challenges, each chosen after the message before it. */
static uint8_t E[OPENED], L[16];

struct transcript {
    uint8_t bytes[BADGE_RUN_MOST];
    size_t length;
};

static void random_bytes(uint8_t *bytes, size_t length)
{
    FILE *f = fopen("/dev/urandom", "rb");
    if (!f || fread(bytes, 1, length, f) != length)
        exit(1);
    fclose(f);
}

static void put_number(uint8_t *bytes, uint32_t x)
{
    for (int j = 0; j < 4; j++)
        bytes[j] = (uint8_t)(x >> 8 * j);
}

/* Whoever issues the badge: a random A, a random secret s, and t = A s. */
static void issue(void)
{
    static const uint32_t head[6] = {Q, ROWS, COLUMNS, PARTIES, EXECUTIONS, OPENED};
    uint8_t *at = key;
    uint64_t t[ROWS] = {0};
    for (int j = 0; j < 6; j++, at += 4)
        put_number(at, head[j]);
    random_bytes(secret, COLUMNS);
    for (int k = 0; k < COLUMNS; k++)
        secret[k] &= 1;
    for (int l = 0; l < ROWS; l++)
        for (int k = 0; k < COLUMNS; k++, at += 4) {
            uint8_t random[2];
            random_bytes(random, 2);
            uint32_t entry = random[0] + 256u * random[1]; /* below q */
            put_number(at, entry);
            t[l] += secret[k] * entry;
        }
    for (int l = 0; l < ROWS; l++, at += 4)
        put_number(at, (uint32_t)(t[l] % Q));
}

/* The transcript's next part was written at its end, or is copied there; its length may be a refusal. */
static void add_part(struct transcript *run, int part, const uint8_t *bytes, int64_t length)
{
    if (length < 0) {
        printf("the badge's call was refused with %d\n", (int)-length);
        exit(1);
    }
    if (bytes)
        memcpy(run->bytes + run->length, bytes, (size_t)length);
    put_number(run->bytes + 8 * (part - 1), (uint32_t)run->length);
    put_number(run->bytes + 8 * (part - 1) + 4, (uint32_t)length);
    run->length += (size_t)length;
}

/* OPENED of the executions, each set equally likely. */
static void choose_opened(void)
{
    uint8_t chosen = 0, random;
    for (uint8_t e = 0; e < EXECUTIONS; e++) {
        do
            random_bytes(&random, 1);
        while (random >= 256 / (EXECUTIONS - e) * (EXECUTIONS - e));
        if (random % (EXECUTIONS - e) < OPENED - chosen)
            E[chosen++] = (uint8_t)(e + 1);
    }
}

static void choose_hidden(uint8_t hidden[KEPT])
{
    random_bytes(hidden, KEPT);
    for (int j = 0; j < KEPT; j++)
        hidden[j] = (uint8_t)(hidden[j] % PARTIES + 1); /* PARTIES divides 256 */
}

#define OUT run->bytes, sizeof run->bytes, run->length
#define SECRET key, sizeof key, seeds, sizeof seeds, secret, sizeof secret, E, sizeof E, K, sizeof K

/* The first five parts: nothing is hidden yet. */
static void talk(struct transcript *run)
{
    run->length = 56;
    random_bytes(seeds, sizeof seeds);
    random_bytes(K, sizeof K);
    add_part(run, 1, NULL, badge_message_1(key, sizeof key, seeds, sizeof seeds, OUT));
    choose_opened();
    add_part(run, 2, E, sizeof E);
    add_part(run, 3, NULL, badge_message_3(SECRET, OUT));
    random_bytes(L, sizeof L);
    add_part(run, 4, L, sizeof L);
    add_part(run, 5, NULL, badge_message_5(SECRET, L, sizeof L, OUT));
}

/* The last challenge and its answer. */
static void finish(struct transcript *run, const uint8_t hidden[KEPT])
{
    add_part(run, 6, hidden, KEPT);
    add_part(run, 7, NULL, badge_message_7(SECRET, L, sizeof L, hidden, KEPT, OUT));
}

static void judge(const char *what, const struct transcript *run)
{
    uint32_t number = badge_judge(key, sizeof key, run->bytes, run->length);
    if (number == 0)
        printf("%s: the judge accepts it\n", what);
    else
        printf("%s: the judge refuses it with %u\n", what, (unsigned)number);
}

static void read_pair(const struct transcript *one, const struct transcript *two)
{
    static uint8_t hash1[BADGE_HASH_INPUT], hash2[BADGE_HASH_INPUT], found[BADGE_SECRET_MOST];
    static uint32_t uv[BADGE_ERRORS_MOST], answer[BADGE_ANSWER];
    int64_t finding = badge_pair(key, sizeof key, one->bytes, one->length, two->bytes, two->length, hash1, sizeof hash1,
                                 hash2, sizeof hash2, found, sizeof found, uv, BADGE_ERRORS_MOST, answer, BADGE_ANSWER);
    if (finding == 2)
        printf("the pair reader finds a secret; it is %s\n", memcmp(found, secret, COLUMNS) == 0 ? "the badge's" : "another one");
    else
        printf("the pair reader answers %d\n", (int)finding);
}

int main(void)
{
    static struct transcript run, again;
    uint8_t hidden[KEPT], another[KEPT], wrong[COLUMNS];
    issue();
    printf("a key of %zu bytes: %d equations in %d unknown bits modulo %d\n", sizeof key, ROWS, COLUMNS, Q);

    talk(&run);
    again = run; /* for below: a careless badge keeps its seeds */
    choose_hidden(hidden);
    finish(&run, hidden);
    printf("the badge and the door made a transcript of %zu bytes\n", run.length);
    judge("the transcript", &run);

    run.bytes[56] ^= 1;
    judge("the same with one bit of message 1 changed", &run);
    run.bytes[56] ^= 1;
    run.length -= 1;
    judge("the same without its last byte", &run);
    run.length += 1;

    memcpy(wrong, secret, COLUMNS);
    wrong[0] ^= 1;
    printf("a badge with a wrong secret: message 3 is refused with %d\n",
           (int)-badge_message_3(key, sizeof key, seeds, sizeof seeds, wrong, COLUMNS, E, sizeof E, K, sizeof K, run.bytes,
                                 sizeof run.bytes, run.length));

    do
        choose_hidden(another);
    while (memcmp(another, hidden, KEPT) == 0);
    finish(&again, another);
    judge("the badge answers a second hidden list after the same messages", &again);
    read_pair(&run, &again);
    return 0;
}
