/* badge.h: the badge proofs for firmware in C.
 *
 * A badge shows that it knows a list s of zeros and ones with A s = t modulo q. It writes four messages (level 1), a controller judges
 * the transcript that is put together from them (level 2), and an auditor reads two transcripts (level 3).
 *
 * A call is a function of its inputs: it allocates nothing, keeps nothing and writes only what is said here. It can run on several
 * threads at once, each with its own outputs and lent lists.
 *
 * Lists. A list is a pointer and then its length, in bytes for uint8_t and in numbers for uint32_t. With length 0 the pointer may be
 * null. Inputs may be of any length and hold anything: what is wrong with them is a number that the call answers.
 *
 * The key. Six numbers q, n, m, N, M, tau, then A row by row, then t, each number 4 bytes, least significant first: 24 + 4n(m + 1)
 * bytes. q is 257, 65537 or 2147483647; n is 1 to 32, m 2 to 128 and more than n; N, the parties, 2, 4, 8, 16 or 32; M, the executions,
 * 2 to 32; tau, those opened whole, 1 to M - 1.
 *
 * The transcript. Seven pairs of offset and length, 4 bytes each, then seven parts without gaps from byte 56 to the end:
 *    1 message 1                            5 message 5
 *    2 E: tau executions, a byte each       6 the hidden list: a party for each kept execution, a byte each
 *    3 message 3                            7 message 7
 *    4 L: 16 bytes
 * Executions and parties count from 1. The kept executions are those not in E, in rising order.
 *
 * Refusals. A refused call answers one number, the first that applies in document 01's order, and leaves every output as it was. The
 * numbers have names below.
 *
 * What the caller owes, since C cannot be held to it:
 *    each pointer is valid for its length, those of uint32_t lists aligned for uint32_t;
 *    no output or lent list overlaps another list of the call;
 *    the stack has room for the call: BADGE_STACK and its like below are what was measured, not proved.
 *
 * Before you open a door on a verdict: an accepted transcript alone proves nothing. Its challenges stand in it, and anyone can write an
 * accepted transcript for any key that is read. The controller itself must choose E, L and the hidden list, each after the message before
 * it has arrived, unpredictably, and once; and then judge the transcript that has these.
 *
 * Before you answer a challenge with a badge: two answers to two hidden lists after the same messages and challenges before them give the
 * secret away. That is what badge_pair shows. A badge takes new seeds for every run and answers each run once.
 *
 * docs/CLAIMS.md says what is proved of these calls, and what is not. The library is for x86-64 Linux. */
#ifndef BADGE_H
#define BADGE_H

#include <stddef.h>
#include <stdint.h>

#ifdef __cplusplus
extern "C" {
#endif

/* The numbers of refusals. */
enum badge_refusal {
    /* The key, first in every call. */
    BADGE_KEY_SHORT = 1,       /* under 24 bytes */
    BADGE_KEY_MODULUS = 2,     /* q is not listed */
    BADGE_KEY_LIMITS = 3,      /* n, m, N, M or tau is outside its limits */
    BADGE_KEY_LENGTH = 4,      /* the length isn't 24 + 4n(m + 1) */
    BADGE_KEY_ENTRY = 5,       /* an entry is q or more */
    /* The prover's inputs; 7 and 10 in a transcript as well. */
    BADGE_INPUT_LENGTH = 6,    /* a seed, seed list or secret list of wrong length */
    BADGE_OPENED_LIST = 7,     /* E isn't tau strictly rising values in 1..M */
    BADGE_SECRET_ENTRY = 8,    /* a secret entry isn't 0 or 1 */
    BADGE_SECRET_IMAGE = 9,    /* A s isn't t */
    BADGE_HIDDEN_LIST = 10,    /* the hidden list isn't M - tau values in 1..N */
    /* Lent outputs and work lists. */
    BADGE_ROOM = 11,           /* a lent output or work list is too short, or the place is past the output's end */
    /* A transcript. */
    BADGE_HEADER = 12,         /* the first six pairs, or any offset, or the file's end is wrong */
    BADGE_REPLIES_LENGTH = 13, /* the seventh length is wrong */
    BADGE_REPLIES_NUMBER = 14, /* a number of part 7 is q or more */
    BADGE_OUTPUT_SUM = 15,     /* the o of a kept execution do not add up to 0 */
    BADGE_OMEGA = 16,          /* Omega of a kept execution is wrong */
    BADGE_H_GAMMA = 17,        /* h_Gamma is wrong */
    BADGE_H_PI = 18,           /* h_pi is wrong */
    BADGE_H_PSI = 19,          /* h_psi is wrong */
    /* A pair of transcripts. */
    BADGE_FIRST_RUN = 20,      /* the first is not accepted */
    BADGE_SECOND_RUN = 21,     /* the second is not accepted */
    BADGE_FRONTS_DIFFER = 22,  /* parts 1 to 5 differ */
    BADGE_HIDDEN_EQUAL = 23    /* the hidden lists are equal */
};

/* Lengths that suffice whatever the key. */
enum {
    BADGE_KEY_MOST = 16536,    /* bytes of a key */
    BADGE_RUN_MOST = 52436,    /* bytes of a transcript */
    BADGE_ENTRIES_MOST = 4128, /* numbers of A and t: n(m + 1) */
    BADGE_WORK_MOST = 16384,   /* numbers of a work list: 4mN */
    BADGE_SECRET_MOST = 128,   /* bytes of a secret: m */
    BADGE_ERRORS_MOST = 160,   /* numbers of u and v: n + m */
    BADGE_HASH_INPUT = 16400,  /* bytes of a hash buffer, asked for whatever the key */
    BADGE_ANSWER = 8           /* numbers of the pair reader's answer */
};

/* Bytes of stack. `make stack` measured no more on x86-64 with the largest q, n, m, N and M: the four messages, a transcript accepted and
 * one refused with 17, a pair with finding 2. Other inputs were not measured, and nothing is proved. */
enum {
    BADGE_STACK = 94000,          /* a message, the judge */
    BADGE_STACK_LENT = 12000,     /* the same with lent lists */
    BADGE_STACK_PAIR = 138000,    /* the pair reader */
    BADGE_STACK_PAIR_LENT = 56000
};

/* Level 1, the prover.
 *
 * Each call writes one message into out from place on and answers its length; every byte before the place and after the message stays.
 * Or it answers minus the number of the refusal, and all of out stays.
 *
 *    key     as above                                                                              refused with 1 to 5
 *    seeds   M master seeds of 16 bytes, execution 1 first                                         6
 *    secret  s: m bytes, each 0 or 1, with A s = t modulo q                                        6, 8, 9
 *    E       the controller's first challenge: tau executions, strictly rising                     7
 *    K       16 bytes of the badge's own                                                           6
 *    L       the controller's second challenge: 16 bytes                                           6
 *    hidden  the controller's third challenge: M - tau parties, one for each kept execution        10
 *    out     the output                                                                            11
 *    place   where the message starts in out, at most out's length                                  11
 *
 * The numbers are tried in rising order, over the inputs that the call takes. The messages of a run take the same key, seeds, secret, E,
 * K and L. Seeds and K must be new for every run, unpredictable, and kept from everyone: the library chooses no randomness.
 *
 *    message   length in bytes
 *    1         32
 *    3         16 tau + 32 (M - tau) + 32
 *    5         32
 *    7         16, and for each kept execution 16 log2 N + 36 + 4m, and 8m more where the hidden party isn't N
 *
 * Time is not the same for every secret: the S-box of AES is a table, read at places that depend on the seeds. */
int64_t badge_message_1(const uint8_t *key, size_t key_length, const uint8_t *seeds, size_t seeds_length,
                        uint8_t *out, size_t out_length, uint64_t place);
int64_t badge_message_3(const uint8_t *key, size_t key_length, const uint8_t *seeds, size_t seeds_length,
                        const uint8_t *secret, size_t secret_length, const uint8_t *E, size_t E_length,
                        const uint8_t *K, size_t K_length, uint8_t *out, size_t out_length, uint64_t place);
int64_t badge_message_5(const uint8_t *key, size_t key_length, const uint8_t *seeds, size_t seeds_length,
                        const uint8_t *secret, size_t secret_length, const uint8_t *E, size_t E_length,
                        const uint8_t *K, size_t K_length, const uint8_t *L, size_t L_length,
                        uint8_t *out, size_t out_length, uint64_t place);
int64_t badge_message_7(const uint8_t *key, size_t key_length, const uint8_t *seeds, size_t seeds_length,
                        const uint8_t *secret, size_t secret_length, const uint8_t *E, size_t E_length,
                        const uint8_t *K, size_t K_length, const uint8_t *L, size_t L_length,
                        const uint8_t *hidden, size_t hidden_length, uint8_t *out, size_t out_length, uint64_t place);

/* Level 2, the judge.
 *
 * 0: accepted. Else the first number that applies: 1 to 5, 12, 7, 10, 13, 14; then for each kept execution in turn 16 and 15; then 17, 18,
 * 19. It writes nothing. */
uint32_t badge_judge(const uint8_t *key, size_t key_length, const uint8_t *run, size_t run_length);

/* Level 3, the pair reader.
 *
 * From two transcripts that part only at the hidden list: what must lie behind them. It answers minus the number of a refusal (1 to 5, 11,
 * 20, 21, 22, 23 in this order), and all outputs stay; or the finding:
 *
 *    1  two different byte strings with one SHA-256 value, at the start of hash1 and hash2
 *    2  a secret: m bytes, each 0 or 1, with A s = t modulo q, at the start of secret
 *    3  b(k) and d(k) of execution e, d(k) not b(k)^2 modulo q
 *    4  u = t - A s (n numbers) and then v(k) = s(k)^2 - s(k) (m numbers), at the start of uv; not all are 0, and the sum of
 *       their products with the coefficients beta and gamma of execution e is 0 modulo q
 *
 * What a finding does not use of hash1, hash2, secret and uv stays, and so does all past what it writes. With a finding, the first
 * eight numbers of answer are kind, e, i, length, k, b, d, 0; those that the finding doesn't have are 0:
 *
 *    1  kind (below), e, i and length, of each of the two strings
 *    2  none
 *    3  e, k, b(k), d(k)
 *    4  e
 *
 * e, i and k count from 1. Kinds of hash inputs: 1 h_Gamma, 2 h(e), 3 Gamma(i), 4 Omega (i is N), 5 h_pi, 6 Pi, 7 h_psi, 8 Psi; i is 0
 * in the others.
 *
 * 11 is given right after the key, unless hash1 and hash2 have 16400 bytes, secret m bytes, uv n + m numbers and answer 8 numbers,
 * whatever the finding will be. */
int64_t badge_pair(const uint8_t *key, size_t key_length, const uint8_t *run1, size_t run1_length,
                   const uint8_t *run2, size_t run2_length, uint8_t *hash1, size_t hash1_length,
                   uint8_t *hash2, size_t hash2_length, uint8_t *secret, size_t secret_length,
                   uint32_t *uv, size_t uv_length, uint32_t *answer, size_t answer_length);

/* The same calls for firmware with little stack: the two work lists, which the calls above have on the stack (82 KB), are lent.
 *
 *    entries  for A and t, n(m + 1) numbers or more
 *    work     4mN numbers or more
 *
 * A shorter one is refused with 11: in the prover after 1 to 10, in the judge and the pair reader right after the key. What the two hold
 * after the call, refused or not, is not said; a badge should wipe them, since they have held its shares. */
int64_t badge_message_1_lent(const uint8_t *key, size_t key_length, const uint8_t *seeds, size_t seeds_length,
                             uint8_t *out, size_t out_length, uint64_t place,
                             uint32_t *entries, size_t entries_length, uint32_t *work, size_t work_length);
int64_t badge_message_3_lent(const uint8_t *key, size_t key_length, const uint8_t *seeds, size_t seeds_length,
                             const uint8_t *secret, size_t secret_length, const uint8_t *E, size_t E_length,
                             const uint8_t *K, size_t K_length, uint8_t *out, size_t out_length, uint64_t place,
                             uint32_t *entries, size_t entries_length, uint32_t *work, size_t work_length);
int64_t badge_message_5_lent(const uint8_t *key, size_t key_length, const uint8_t *seeds, size_t seeds_length,
                             const uint8_t *secret, size_t secret_length, const uint8_t *E, size_t E_length,
                             const uint8_t *K, size_t K_length, const uint8_t *L, size_t L_length,
                             uint8_t *out, size_t out_length, uint64_t place,
                             uint32_t *entries, size_t entries_length, uint32_t *work, size_t work_length);
int64_t badge_message_7_lent(const uint8_t *key, size_t key_length, const uint8_t *seeds, size_t seeds_length,
                             const uint8_t *secret, size_t secret_length, const uint8_t *E, size_t E_length,
                             const uint8_t *K, size_t K_length, const uint8_t *L, size_t L_length,
                             const uint8_t *hidden, size_t hidden_length, uint8_t *out, size_t out_length, uint64_t place,
                             uint32_t *entries, size_t entries_length, uint32_t *work, size_t work_length);
uint32_t badge_judge_lent(const uint8_t *key, size_t key_length, const uint8_t *run, size_t run_length,
                          uint32_t *entries, size_t entries_length, uint32_t *work, size_t work_length);
int64_t badge_pair_lent(const uint8_t *key, size_t key_length, const uint8_t *run1, size_t run1_length,
                        const uint8_t *run2, size_t run2_length, uint8_t *hash1, size_t hash1_length,
                        uint8_t *hash2, size_t hash2_length, uint8_t *secret, size_t secret_length,
                        uint32_t *uv, size_t uv_length, uint32_t *answer, size_t answer_length,
                        uint32_t *entries, size_t entries_length, uint32_t *work, size_t work_length);

#ifdef __cplusplus
}
#endif

#endif
