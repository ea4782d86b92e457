/* A second implementation of the badge protocol, in plain C.
 *
 * Lists are a pointer and a length. Byte lists count bytes; work, at and uv count 32-bit numbers.
 * A refused call leaves every output untouched; work lists are free after every call. */
#ifndef REFERENCE_H
#define REFERENCE_H

#include <stddef.h>
#include <stdint.h>

/* The numbers of refusals, in document 01's words. */
enum refusal {
    ACCEPTED = 0,
    KEY_SHORT = 1,          /* key: under 24 bytes */
    KEY_MODULUS = 2,        /* q not listed */
    KEY_LIMITS = 3,         /* n, m, N, M or tau outside its limits */
    KEY_LENGTH = 4,         /* length not 24 + 4n(m + 1) */
    KEY_ENTRY = 5,          /* an entry q or more */
    INPUT_LENGTH = 6,       /* prover: a seed, seed list or secret list of wrong length */
    OPENED_WRONG = 7,       /* E not tau strictly rising values in 1..M */
    SECRET_NOT_BINARY = 8,  /* secret entry not 0 or 1 */
    SECRET_WRONG = 9,       /* A s not t */
    HIDDEN_WRONG = 10,      /* hidden list not M - tau values in 1..N */
    LENT_SHORT = 11,        /* a lent output or work list too short */
    LAYOUT_WRONG = 12,      /* transcript: the first six pairs, an offset, or the file's end */
    OPENING_LENGTH = 13,    /* seventh length */
    OPENING_NUMBER = 14,    /* a number q or more in part 7 */
    SUM_WRONG = 15,         /* sum of o not 0 */
    OMEGA_WRONG = 16,
    GAMMA_WRONG = 17,       /* the list hashes */
    PI_WRONG = 18,
    PSI_WRONG = 19,
    FIRST_REFUSED = 20,     /* pair: first transcript not accepted */
    SECOND_REFUSED = 21,
    PARTS_DIFFER = 22,      /* parts 1 to 5 differ */
    HIDDEN_EQUAL = 23       /* hidden lists equal */
};

/* The findings of the pair reader. */
enum finding { COLLISION = 1, WITNESS = 2, WRONG_SQUARE = 3, CANCELLED_ERRORS = 4 };

/* Words of the pair reader's answer; 0 where the finding has none. */
enum answer_word {
    ANSWER_KIND = 0, ANSWER_E = 1, ANSWER_I = 2, ANSWER_LENGTH = 3,
    ANSWER_K = 4, ANSWER_B = 5, ANSWER_D = 6, ANSWER_WORDS = 8
};

enum {
    MAX_ROWS = 32, MAX_COLUMNS = 128, MAX_PARTIES = 32, MAX_EXECUTIONS = 32,
    MAX_WORK = 4 * MAX_COLUMNS * MAX_PARTIES,     /* 32-bit numbers of work */
    MAX_AT = MAX_ROWS * (MAX_COLUMNS + 1),        /* 32-bit numbers of A and t */
    MAX_HASH_INPUT = 4 * MAX_COLUMNS * MAX_PARTIES + 16
};

/* The judge: 0 for accepted, else the number of the refusal. */
uint32_t ref_judge(const uint8_t *key, size_t key_len, const uint8_t *run, size_t run_len);

/* The prover's messages, written to out from place on. The answer is the message's length, or
 * minus the number of the refusal. */
int64_t ref_message_1(const uint8_t *key, size_t key_len, const uint8_t *seeds, size_t seeds_len,
                      uint8_t *out, size_t out_len, uint64_t place);
int64_t ref_message_3(const uint8_t *key, size_t key_len, const uint8_t *seeds, size_t seeds_len,
                      const uint8_t *secret, size_t secret_len, const uint8_t *E, size_t E_len,
                      const uint8_t *K, size_t K_len, uint8_t *out, size_t out_len, uint64_t place);
int64_t ref_message_5(const uint8_t *key, size_t key_len, const uint8_t *seeds, size_t seeds_len,
                      const uint8_t *secret, size_t secret_len, const uint8_t *E, size_t E_len,
                      const uint8_t *K, size_t K_len, const uint8_t *L, size_t L_len,
                      uint8_t *out, size_t out_len, uint64_t place);
int64_t ref_message_7(const uint8_t *key, size_t key_len, const uint8_t *seeds, size_t seeds_len,
                      const uint8_t *secret, size_t secret_len, const uint8_t *E, size_t E_len,
                      const uint8_t *K, size_t K_len, const uint8_t *L, size_t L_len,
                      const uint8_t *hidden, size_t hidden_len,
                      uint8_t *out, size_t out_len, uint64_t place);

/* The pair reader: a finding, or minus the number of the refusal. Finding 1 fills hash1 and hash2,
 * finding 2 secret, finding 4 uv; answer gets eight words. */
int64_t ref_pair(const uint8_t *key, size_t key_len, const uint8_t *run1, size_t run1_len,
                 const uint8_t *run2, size_t run2_len, uint8_t *hash1, size_t hash1_len,
                 uint8_t *hash2, size_t hash2_len, uint8_t *secret, size_t secret_len,
                 uint32_t *uv, size_t uv_len, uint32_t *answer, size_t answer_len);

/* The same calls with lent work lists. */
struct lent {
    uint32_t *work;   /* 4mN numbers */
    size_t work_len;
    uint32_t *at;     /* A row by row, then t: n(m + 1) numbers */
    size_t at_len;
};

uint32_t ref_judge_lent(const uint8_t *key, size_t key_len, const uint8_t *run, size_t run_len,
                        const struct lent *lent);
int64_t ref_message_1_lent(const uint8_t *key, size_t key_len,
                           const uint8_t *seeds, size_t seeds_len,
                           uint8_t *out, size_t out_len, uint64_t place, const struct lent *lent);
int64_t ref_message_3_lent(const uint8_t *key, size_t key_len,
                           const uint8_t *seeds, size_t seeds_len,
                           const uint8_t *secret, size_t secret_len,
                           const uint8_t *E, size_t E_len, const uint8_t *K, size_t K_len,
                           uint8_t *out, size_t out_len, uint64_t place, const struct lent *lent);
int64_t ref_message_5_lent(const uint8_t *key, size_t key_len,
                           const uint8_t *seeds, size_t seeds_len,
                           const uint8_t *secret, size_t secret_len,
                           const uint8_t *E, size_t E_len, const uint8_t *K, size_t K_len,
                           const uint8_t *L, size_t L_len,
                           uint8_t *out, size_t out_len, uint64_t place, const struct lent *lent);
int64_t ref_message_7_lent(const uint8_t *key, size_t key_len,
                           const uint8_t *seeds, size_t seeds_len,
                           const uint8_t *secret, size_t secret_len,
                           const uint8_t *E, size_t E_len, const uint8_t *K, size_t K_len,
                           const uint8_t *L, size_t L_len, const uint8_t *hidden, size_t hidden_len,
                           uint8_t *out, size_t out_len, uint64_t place, const struct lent *lent);
int64_t ref_pair_lent(const uint8_t *key, size_t key_len, const uint8_t *run1, size_t run1_len,
                      const uint8_t *run2, size_t run2_len, uint8_t *hash1, size_t hash1_len,
                      uint8_t *hash2, size_t hash2_len, uint8_t *secret, size_t secret_len,
                      uint32_t *uv, size_t uv_len, uint32_t *answer, size_t answer_len,
                      const struct lent *lent);

#endif
