/* The proved SHA-256, AES-128 and streams on published vectors, and beside the second implementation on inputs of many lengths. */
#include "primitives.h"

#include "aes128.h"
#include "layers.h"
#include "sha256.h"

#include <stdio.h>
#include <string.h>

static unsigned long passed, failed;

static void expect(int ok, const char *what)
{
    if (ok) {
        passed++;
    } else {
        failed++;
        printf("different: %s\n", what);
    }
}

static size_t from_hex(const char *hex, uint8_t *out)
{
    size_t n = strlen(hex) / 2;
    for (size_t i = 0; i < n; i++) {
        unsigned x;
        sscanf(hex + 2 * i, "%2x", &x);
        out[i] = (uint8_t)x;
    }
    return n;
}

static uint64_t state = 0x9e3779b97f4a7c15u;

static uint64_t draw(void)
{
    state ^= state << 13;
    state ^= state >> 7;
    state ^= state << 17;
    return state;
}

static void draw_bytes(uint8_t *out, size_t n)
{
    for (size_t i = 0; i < n; i++)
        out[i] = (uint8_t)(draw() >> 24);
}

static void digest_is(const uint8_t *data, size_t n, const char *hex, const char *what)
{
    uint8_t want[32], got[32];
    from_hex(hex, want);
    badge_sha256(data, n, got);
    expect(memcmp(want, got, 32) == 0, what);
}

/* NIST's examples for FIPS 180-4. */
static void nist(void)
{
    static uint8_t million[1000000];
    const char *m448 = "abcdbcdecdefdefgefghfghighijhijkijkljklmklmnlmnomnopnopq";
    const char *m896 = "abcdefghbcdefghicdefghijdefghijkefghijklfghijklmghijklmn"
                       "hijklmnoijklmnopjklmnopqklmnopqrlmnopqrsmnopqrstnopqrstu";
    memset(million, 'a', sizeof million);
    digest_is((const uint8_t *)"abc", 3, "ba7816bf8f01cfea414140de5dae2223b00361a396177a9cb410ff61f20015ad", "abc");
    digest_is(NULL, 0, "e3b0c44298fc1c149afbf4c8996fb92427ae41e4649b934ca495991b7852b855", "empty");
    digest_is((const uint8_t *)m448, 56, "248d6a61d20638b8e5c026930c3e6039a33ce45964ff2167f6ecedd419db06c1", "448 bits");
    digest_is((const uint8_t *)m896, 112, "cf5b16a778af8380036ce59e7b0492370b249b11e8f07a51afac45037afee9d1", "896 bits");
    digest_is(million, sizeof million, "cdc76e5c9914fb9281a1c7e284d73e67f1809a48a497200e046d39ccc7112cd0", "a million a");
}

static void cipher_is(const char *key, const char *plain, const char *crypted, const char *what)
{
    uint8_t k[16], p[16], want[16], got[16], w[176];
    from_hex(key, k);
    from_hex(plain, p);
    from_hex(crypted, want);
    badge_schedule(k, w);
    badge_block(w, p, got);
    expect(memcmp(want, got, 16) == 0, what);
}

/* FIPS 197, appendices A.1, B and C.1. */
static void fips197(void)
{
    uint8_t k[16], w[176], want[16];
    from_hex("2b7e151628aed2a6abf7158809cf4f3c", k);
    from_hex("d014f9a8c9ee2589e13f0cc8b6630ca6", want);
    badge_schedule(k, w);
    expect(memcmp(w, k, 16) == 0 && memcmp(w + 160, want, 16) == 0, "FIPS 197 A.1");
    cipher_is("2b7e151628aed2a6abf7158809cf4f3c", "3243f6a8885a308d313198a2e0370734", "3925841d02dc09fbdc118597196a0b32", "FIPS 197 B");
    cipher_is("000102030405060708090a0b0c0d0e0f", "00112233445566778899aabbccddeeff", "69c4e0d86a7b0430d8cdb78070b4c55a", "FIPS 197 C.1");
}

static void beside_the_reference(void)
{
    static uint8_t data[4096];
    static uint32_t ours[400], theirs[400];
    const uint32_t qs[] = {257, 65537, 2147483647};
    draw_bytes(data, sizeof data);
    for (size_t n = 0; n < 700; n++) {
        uint8_t a[32], b[32];
        size_t from = draw() % 1000;
        badge_sha256(data + from, n, a);
        sha256(data + from, n, b);
        expect(memcmp(a, b, 32) == 0, "digest");
    }
    for (int t = 0; t < 400; t++) {
        uint8_t k[16], in[256], out[256], w[176], x[16], y[16], z[16];
        struct aes128 key;
        draw_bytes(k, 16);
        draw_bytes(in, 256);
        badge_schedule(k, w);
        aes128_expand(&key, k);
        badge_sixteen(w, in, out);
        for (int l = 0; l < 16; l++) {
            for (int p = 0; p < 16; p++)
                x[p] = in[16 * p + l];
            aes128_encrypt(&key, x, y);
            badge_block(w, x, z);
            expect(memcmp(y, z, 16) == 0, "block");
            for (int p = 0; p < 16; p++)
                z[p] = out[16 * p + l];
            expect(memcmp(y, z, 16) == 0, "one of sixteen blocks");
        }
        size_t count = draw() % 400;
        uint64_t first = draw() >> (draw() % 60 + 3);
        uint32_t q = qs[t % 3];
        expect(badge_numbers(k, 16, first, q, ours, count) == 0, "numbers are given");
        stream_numbers(&key, first, q, theirs, count);
        expect(memcmp(ours, theirs, 4 * count) == 0, "numbers");
    }
}

static void refusals(void)
{
    uint8_t seed[17] = {0};
    uint32_t out[3] = {7, 7, 7};
    expect(badge_numbers(seed, 16, 0, 256, out, 3) == 2, "q");
    expect(badge_numbers(seed, 17, 0, 257, out, 3) == 6, "seed");
    expect(badge_numbers(seed, 16, (uint64_t)1 << 62, 257, out, 3) == 11, "first");
    expect(out[0] == 7 && out[1] == 7 && out[2] == 7, "untouched");
}

int main(void)
{
    nist();
    fips197();
    beside_the_reference();
    refusals();
    printf("primitives: %lu passed, %lu failed\n", passed, failed);
    return failed != 0;
}
