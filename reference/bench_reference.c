/* Times of the second implementation, in nanoseconds of processor time, best of several runs. */
#define _POSIX_C_SOURCE 200809L
#include "samples.h"

#include <stdio.h>
#include <time.h>

static double now(void)
{
    struct timespec t;
    clock_gettime(CLOCK_PROCESS_CPUTIME_ID, &t);
    return 1e9 * (double)t.tv_sec + (double)t.tv_nsec;
}

/* Best time of one run of the statement, in rounds of repeat runs. */
#define BEST(rounds, repeat, statement, best)                        \
    do {                                                             \
        best = 1e18;                                                 \
        for (int round_ = 0; round_ < (rounds); round_++) {          \
            double start_ = now();                                   \
            for (int run_ = 0; run_ < (repeat); run_++) {            \
                statement;                                           \
            }                                                        \
            double took_ = (now() - start_) / (repeat);              \
            best = took_ < best ? took_ : best;                      \
        }                                                            \
    } while (0)

static uint64_t generator = 1;

static void time_layers(void)
{
    static uint8_t data[65536], blocks[16 * 192];
    static uint32_t list[384];
    uint8_t digest[32], seed[16];
    struct aes128 key;
    double t;
    random_bytes(&generator, data, sizeof data);
    random_bytes(&generator, seed, 16);
    BEST(30, 10, sha256(data, sizeof data, digest); data[0] ^= digest[0], t);
    printf("  %-34s %12.1f  (%.0f MB/s)\n", "SHA-256 of 65536 bytes", t, 65536e3 / t);
    BEST(30, 1000, sha256(data, 32, digest); data[0] ^= digest[0], t);
    printf("  %-34s %12.1f\n", "SHA-256 of 32 bytes", t);
    BEST(30, 1000, aes128_expand(&key, seed); seed[0] ^= (uint8_t)key.w[43], t);
    printf("  %-34s %12.1f\n", "AES-128 key schedule", t);
    BEST(30, 1000, aes128_encrypt(&key, seed, seed), t);
    printf("  %-34s %12.1f\n", "AES-128 one block", t);
    BEST(30, 100, aes128_counters(&key, 2, blocks, 192); key.w[0] ^= blocks[0], t);
    printf("  %-34s %12.1f  (%.1f for each)\n", "AES-128 of 192 counters", t, t / 192);
    for (int j = 0; j < 3; j++) {
        static const uint32_t moduli[3] = {257, 65537, 2147483647};
        char name[64];
        BEST(30, 100, stream_numbers(&key, 2, moduli[j], list, 384); key.w[0] ^= list[0], t);
        snprintf(name, sizeof name, "384 numbers modulo %u", moduli[j]);
        printf("  %-34s %12.1f  (%.1f for each)\n", name, t, t / 384);
    }
}

#define SEEDS(s) (s)->key, (s)->key_len, (s)->seeds, 16 * (s)->read.M
#define SECRET(s) SEEDS(s), (s)->secret, (s)->read.m, (s)->E, (s)->read.tau, (s)->K, 16

static void time_calls(const char *name, const uint32_t record[6])
{
    static struct sample sample;
    static uint8_t out[65536], hash[2][MAX_HASH_INPUT], secret[MAX_COLUMNS];
    static uint32_t uv[MAX_ROWS + MAX_COLUMNS], answer[ANSWER_WORDS];
    struct sample *s = &sample;
    uint32_t verdict = 99;
    int64_t finding = 99;
    double t;
    make_inputs(s, record, &generator);
    make_honest(s);
    printf("%s: q %u, n %u, m %u, N %u, M %u, tau %u; key %zu bytes, run %zu bytes\n", name, record[0],
           record[1], record[2], record[3], record[4], record[5], s->key_len, s->run_len[0]);
    BEST(15, 1, ref_message_1(SEEDS(s), out, sizeof out, 0), t);
    printf("  %-34s %12.0f\n", "message 1", t);
    BEST(15, 1, ref_message_3(SECRET(s), out, sizeof out, 0), t);
    printf("  %-34s %12.0f\n", "message 3", t);
    BEST(15, 1, ref_message_5(SECRET(s), s->L, 16, out, sizeof out, 0), t);
    printf("  %-34s %12.0f\n", "message 5", t);
    BEST(15, 1, ref_message_7(SECRET(s), s->L, 16, s->hidden[0], s->read.kept, out, sizeof out, 0), t);
    printf("  %-34s %12.0f\n", "message 7", t);
    BEST(15, 1, verdict = ref_judge(s->key, s->key_len, s->run[0], s->run_len[0]), t);
    printf("  %-34s %12.0f  (verdict %u)\n", "judge", t, verdict);
    BEST(15, 1, finding = ref_pair(s->key, s->key_len, s->run[0], s->run_len[0], s->run[1], s->run_len[1],
                                   hash[0], MAX_HASH_INPUT, hash[1], MAX_HASH_INPUT, secret, MAX_COLUMNS,
                                   uv, MAX_ROWS + MAX_COLUMNS, answer, ANSWER_WORDS), t);
    printf("  %-34s %12.0f  (finding %lld)\n", "pair reader", t, (long long)finding);
}

int main(void)
{
    static const uint32_t largest[6] = {2147483647, 32, 128, 32, 32, 16};
    static const uint32_t middle[6] = {65537, 16, 64, 8, 16, 8};
    printf("layers, ns\n");
    time_layers();
    time_calls("largest", largest);
    time_calls("middle", middle);
    return 0;
}
