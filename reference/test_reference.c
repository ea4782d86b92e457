/* Published vectors of FIPS 180-4 and FIPS 197, and cases a to j of document 01. */
#include "layers.h"

#include <stdio.h>
#include <string.h>

static int passed, failed;

static void check(int right, const char *name)
{
    if (right)
        passed++;
    else {
        failed++;
        printf("failed: %s\n", name);
    }
}

static void unhex(const char *hex, uint8_t *out)
{
    unsigned byte;
    for (; sscanf(hex, "%2x", &byte) == 1; hex += 2)
        *out++ = (uint8_t)byte;
}

/* SHA-256, in one piece and byte by byte. */
static void check_sha256(const char *data, size_t length, const char *digest, const char *name)
{
    uint8_t expected[32], got[32];
    struct sha256 c;
    unhex(digest, expected);
    sha256((const uint8_t *)data, length, got);
    check(memcmp(got, expected, 32) == 0, name);
    sha256_start(&c);
    for (size_t j = 0; j < length; j++)
        sha256_add(&c, (const uint8_t *)data + j, 1);
    sha256_end(&c, got);
    check(memcmp(got, expected, 32) == 0, name);
}

static void test_sha256(void)
{
    static char million[1000000];
    const char *two = "abcdbcdecdefdefgefghfghighijhijkijkljklmklmnlmnomnopnopq";
    const char *four = "abcdefghbcdefghicdefghijdefghijkefghijklfghijklmghijklmn"
                       "hijklmnoijklmnopjklmnopqklmnopqrlmnopqrsmnopqrstnopqrstu";
    memset(million, 'a', sizeof million);
    check_sha256("", 0, "e3b0c44298fc1c149afbf4c8996fb92427ae41e4649b934ca495991b7852b855", "SHA-256 empty");
    check_sha256("abc", 3, "ba7816bf8f01cfea414140de5dae2223b00361a396177a9cb410ff61f20015ad", "SHA-256 abc");
    check_sha256(two, 56, "248d6a61d20638b8e5c026930c3e6039a33ce45964ff2167f6ecedd419db06c1", "SHA-256 448 bits");
    check_sha256(four, 112, "cf5b16a778af8380036ce59e7b0492370b249b11e8f07a51afac45037afee9d1", "SHA-256 896 bits");
    check_sha256(million, sizeof million, "cdc76e5c9914fb9281a1c7e284d73e67f1809a48a497200e046d39ccc7112cd0",
                 "SHA-256 a million a");
}

/* FIPS 197, A.1: words 4 to 43 of the expanded key, as bytes. */
static void test_key_expansion(void)
{
    static const char *words =
        "a0fafe1788542cb123a339392a6c7605" "f2c295f27a96b9435935807a7359f67f"
        "3d80477d4716fe3e1e237e446d7a883b" "ef44a541a8525b7fb671253bdb0bad00"
        "d4d1c6f87c839d87caf2b8bc11f915bc" "6d88a37a110b3efddbf98641ca0093fd"
        "4e54f70e5f5fc9f384a64fb24ea6dc4f" "ead27321b58dbad2312bf5607f8d292f"
        "ac7766f319fadc2128d12941575c006e" "d014f9a8c9ee2589e13f0cc8b6630ca6";
    uint8_t seed[16], expected[160], got[160];
    struct aes128 key;
    unhex("2b7e151628aed2a6abf7158809cf4f3c", seed);
    unhex(words, expected);
    aes128_expand(&key, seed);
    store_numbers(got, key.w + 4, 40);
    check(memcmp(got, expected, 160) == 0, "FIPS 197 A.1");
}

static void check_aes128(const char *seed_hex, const char *in_hex, const char *out_hex, const char *name)
{
    uint8_t seed[16], in[16], expected[16], got[16];
    struct aes128 key;
    unhex(seed_hex, seed);
    unhex(in_hex, in);
    unhex(out_hex, expected);
    aes128_expand(&key, seed);
    aes128_encrypt(&key, in, got);
    check(memcmp(got, expected, 16) == 0, name);
}

/* Runs of counters against single blocks, over a carry into the second byte. */
static void test_counters(void)
{
    uint8_t seed[16], in[16] = {0}, run[16 * 600], one[16];
    struct aes128 key;
    int same = 1;
    unhex("2b7e151628aed2a6abf7158809cf4f3c", seed);
    aes128_expand(&key, seed);
    aes128_counters(&key, 3, run, 600);
    for (unsigned j = 0; j < 600; j++) {
        in[14] = (uint8_t)((j + 3) >> 8);
        in[15] = (uint8_t)(j + 3);
        aes128_encrypt(&key, in, one);
        same = same && memcmp(one, run + 16 * j, 16) == 0;
    }
    check(same, "counters");
}

static void test_inverses(void)
{
    static const uint32_t moduli[3] = {257, 65537, 2147483647};
    check(inverse_of_parties(4, 257) == 193, "case a");
    check(inverse_of_parties(32, 257) == 249, "case b");
    check(inverse_of_parties(2, 2147483647) == 1073741824, "case c");
    for (int j = 0; j < 3; j++)
        for (uint32_t N = 2; N <= 32; N *= 2)
            check(times(N, inverse_of_parties(N, moduli[j]), moduli[j]) == 1, "inverse");
}

/* A key without A and t: n 1, m 2, two parties, zero entries. */
static void small_key(uint8_t bytes[36], uint32_t q, uint32_t N, uint32_t M, uint32_t tau)
{
    const uint32_t record[6] = {q, 1, 2, N, M, tau};
    memset(bytes, 0, 36);
    store_numbers(bytes, record, 6);
}

/* Cases d, e, f: the gamma term of k = 1 alone, by beta 0 and gamma 1, 0. */
static void check_gamma_terms(uint32_t s2, uint32_t d2, uint32_t alpha, uint32_t o1, uint32_t o2, const char *name)
{
    uint8_t bytes[36];
    struct key key;
    uint32_t work[16], at[3];
    struct execution x;
    memset(&x, 0, sizeof x);
    memset(work, 0, sizeof work);
    small_key(bytes, 257, 2, 2, 1);
    check(read_key(&key, bytes, 36) == 0, name);
    load_numbers(at, key.entries, 3);
    execution_start(&x, &key, work, at);
    shares_s(&x, 0)[0] = 100, shares_s(&x, 1)[0] = s2;
    shares_b(&x, 0)[0] = 7, shares_b(&x, 1)[0] = 10;
    shares_d(&x, 0)[0] = 30, shares_d(&x, 1)[0] = d2;
    x.coefficient[1] = 1;
    mask_secret(&x, NO_PARTY);
    sum_alpha(&x);
    compute_outputs(&x, NO_PARTY);
    check(x.alpha_sum[0] == alpha && x.o[0] == o1 && x.o[1] == o2, name);
}

/* Case g: eight bytes ff. */
static void test_reduction(void)
{
    check(reduce(UINT64_MAX, 257) == 0 && reduce(UINT64_MAX, 65537) == 0 && reduce(UINT64_MAX, 2147483647) == 3,
          "case g");
}

/* Case h: N 8, hidden 3. */
static void test_tree(void)
{
    uint8_t root[16] = {1}, left[16], right[16], one[16], two[16], leaves[8][16], opened[48];
    tree_leaves(root, 8, leaves);
    stream_block(root, 0, left);
    stream_block(root, 1, right);
    stream_block(left, 0, one);
    stream_block(left, 1, two);
    check(tree_open(root, 8, 2, opened) == opened + 48, "case h");
    check(memcmp(opened, one, 16) == 0, "case h, leaves 1-2");
    check(memcmp(opened + 16, leaves[3], 16) == 0, "case h, leaf 4");
    check(memcmp(opened + 32, right, 16) == 0, "case h, leaves 5-8");
    stream_block(two, 1, one);
    check(memcmp(leaves[3], one, 16) == 0, "case h, leaf 4 from its parent");
}

/* Case i: M 4, tau 2. */
static void test_opened(void)
{
    static const uint8_t lists[5][2] = {{1, 3}, {3, 1}, {2, 2}, {0, 1}, {1, 5}};
    uint8_t bytes[36];
    struct key key;
    small_key(bytes, 257, 2, 4, 2);
    check(read_key(&key, bytes, 36) == 0, "case i, key");
    for (int j = 0; j < 5; j++)
        check(opened_is_right(&key, lists[j], 2) == (j == 0), "case i");
}

/* Case j: offsets and lengths of an honest transcript, hidden party given. */
static void check_layout(uint8_t hidden, size_t length)
{
    static const uint32_t offsets[7] = {56, 88, 89, 169, 185, 217, 218};
    uint8_t bytes[36], run[310], seeds[32] = {7}, secret[2] = {0, 1}, E[1] = {1}, K[16] = {8}, L[16] = {9};
    small_key(bytes, 257, 2, 2, 1);
    bytes[24] = 5, bytes[28] = 6, bytes[32] = 6; /* A = (5 6), t = 6 */
    size_t size = 0;
    size += (size_t)ref_message_1(bytes, 36, seeds, 32, run, 310, 56);
    run[56 + size++] = 1;
    size += (size_t)ref_message_3(bytes, 36, seeds, 32, secret, 2, E, 1, K, 16, run, 310, 56 + size);
    memcpy(run + 56 + size, L, 16);
    size += 16;
    size += (size_t)ref_message_5(bytes, 36, seeds, 32, secret, 2, E, 1, K, 16, L, 16, run, 310, 56 + size);
    run[56 + size++] = hidden;
    size += (size_t)ref_message_7(bytes, 36, seeds, 32, secret, 2, E, 1, K, 16, L, 16, &hidden, 1, run, 310,
                                  56 + size);
    check(56 + size == length, "case j, length");
    for (int p = 0; p < 7; p++) {
        store_number(run + 8 * p, offsets[p]);
        store_number(run + 8 * p + 4, (p == 6 ? (uint32_t)length : offsets[p + 1]) - offsets[p]);
    }
    check(ref_judge(bytes, 36, run, length) == ACCEPTED, "case j, accepted");
    check(ref_judge(bytes, 36, run, length - 1) == LAYOUT_WRONG, "case j, cut");
}

int main(void)
{
    test_sha256();
    test_key_expansion();
    check_aes128("2b7e151628aed2a6abf7158809cf4f3c", "3243f6a8885a308d313198a2e0370734",
                 "3925841d02dc09fbdc118597196a0b32", "FIPS 197 B");
    check_aes128("000102030405060708090a0b0c0d0e0f", "00112233445566778899aabbccddeeff",
                 "69c4e0d86a7b0430d8cdb78070b4c55a", "FIPS 197 C.1");
    test_counters();
    test_inverses();
    check_gamma_terms(158, 2, 241, 17, 240, "case d");
    check_gamma_terms(159, 2, 242, 124, 135, "case e");
    check_gamma_terms(158, 3, 241, 17, 241, "case f");
    test_reduction();
    test_tree();
    test_opened();
    check_layout(2, 294);
    check_layout(1, 310);
    printf("%d passed, %d failed\n", passed, failed);
    return failed > 0;
}
