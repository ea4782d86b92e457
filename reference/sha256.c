/* SHA-256, FIPS 180-4. Names are the standard's. */
#include "sha256.h"

#include <string.h>

static const uint32_t K[64] = {
    0x428a2f98, 0x71374491, 0xb5c0fbcf, 0xe9b5dba5, 0x3956c25b, 0x59f111f1, 0x923f82a4, 0xab1c5ed5,
    0xd807aa98, 0x12835b01, 0x243185be, 0x550c7dc3, 0x72be5d74, 0x80deb1fe, 0x9bdc06a7, 0xc19bf174,
    0xe49b69c1, 0xefbe4786, 0x0fc19dc6, 0x240ca1cc, 0x2de92c6f, 0x4a7484aa, 0x5cb0a9dc, 0x76f988da,
    0x983e5152, 0xa831c66d, 0xb00327c8, 0xbf597fc7, 0xc6e00bf3, 0xd5a79147, 0x06ca6351, 0x14292967,
    0x27b70a85, 0x2e1b2138, 0x4d2c6dfc, 0x53380d13, 0x650a7354, 0x766a0abb, 0x81c2c92e, 0x92722c85,
    0xa2bfe8a1, 0xa81a664b, 0xc24b8b70, 0xc76c51a3, 0xd192e819, 0xd6990624, 0xf40e3585, 0x106aa070,
    0x19a4c116, 0x1e376c08, 0x2748774c, 0x34b0bcb5, 0x391c0cb3, 0x4ed8aa4a, 0x5b9cca4f, 0x682e6ff3,
    0x748f82ee, 0x78a5636f, 0x84c87814, 0x8cc70208, 0x90befffa, 0xa4506ceb, 0xbef9a3f7, 0xc67178f2,
};

static inline uint32_t rotr(uint32_t x, int n) { return x >> n | x << (32 - n); }
static inline uint32_t Ch(uint32_t x, uint32_t y, uint32_t z) { return z ^ (x & (y ^ z)); }
static inline uint32_t Maj(uint32_t x, uint32_t y, uint32_t z) { return ((x ^ y) & (y ^ z)) ^ y; }
static inline uint32_t Sigma0(uint32_t x) { return rotr(x, 2) ^ rotr(x, 13) ^ rotr(x, 22); }
static inline uint32_t Sigma1(uint32_t x) { return rotr(x, 6) ^ rotr(x, 11) ^ rotr(x, 25); }
static inline uint32_t sigma0(uint32_t x) { return rotr(x, 7) ^ rotr(x, 18) ^ x >> 3; }
static inline uint32_t sigma1(uint32_t x) { return rotr(x, 17) ^ rotr(x, 19) ^ x >> 10; }

static inline uint32_t load_be(const uint8_t *p)
{
    return (uint32_t)p[0] << 24 | (uint32_t)p[1] << 16 | (uint32_t)p[2] << 8 | p[3];
}

static inline void store_be(uint8_t *p, uint32_t x)
{
    p[0] = (uint8_t)(x >> 24);
    p[1] = (uint8_t)(x >> 16);
    p[2] = (uint8_t)(x >> 8);
    p[3] = (uint8_t)x;
}

/* One step; the callers turn the names instead of moving the eight words. */
#define STEP(a, b, c, d, e, f, g, h, x)                    \
    do {                                                   \
        uint32_t T1 = (h) + Sigma1(e) + Ch(e, f, g) + (x); \
        (d) += T1;                                         \
        (h) = T1 + Sigma0(a) + Maj(a, b, c);               \
    } while (0)

/* The next schedule word, in the place of the sixteenth before it. */
#define NEXT(j) \
    (W[(j) & 15] += sigma1(W[((j) + 14) & 15]) + W[((j) + 9) & 15] + sigma0(W[((j) + 1) & 15]))

/* Eight steps; word(j) is the schedule word of step j. */
#define EIGHT(k, j, word)                                        \
    do {                                                         \
        STEP(a, b, c, d, e, f, g, h, (k)[(j) + 0] + word((j) + 0)); \
        STEP(h, a, b, c, d, e, f, g, (k)[(j) + 1] + word((j) + 1)); \
        STEP(g, h, a, b, c, d, e, f, (k)[(j) + 2] + word((j) + 2)); \
        STEP(f, g, h, a, b, c, d, e, (k)[(j) + 3] + word((j) + 3)); \
        STEP(e, f, g, h, a, b, c, d, (k)[(j) + 4] + word((j) + 4)); \
        STEP(d, e, f, g, h, a, b, c, (k)[(j) + 5] + word((j) + 5)); \
        STEP(c, d, e, f, g, h, a, b, (k)[(j) + 6] + word((j) + 6)); \
        STEP(b, c, d, e, f, g, h, a, (k)[(j) + 7] + word((j) + 7)); \
    } while (0)

#define FIRST(j) (W[j] = load_be(data + 4 * (j)))

static void compress(uint32_t H[8], const uint8_t *data, size_t blocks)
{
    uint32_t W[16]; /* the last sixteen words of the schedule */
    for (; blocks > 0; blocks--, data += 64) {
        uint32_t a = H[0], b = H[1], c = H[2], d = H[3], e = H[4], f = H[5], g = H[6], h = H[7];
        EIGHT(K, 0, FIRST);
        EIGHT(K, 8, FIRST);
        for (int t = 16; t < 64; t += 16) {
            EIGHT(K + t, 0, NEXT);
            EIGHT(K + t, 8, NEXT);
        }
        H[0] += a; H[1] += b; H[2] += c; H[3] += d;
        H[4] += e; H[5] += f; H[6] += g; H[7] += h;
    }
}

void sha256_start(struct sha256 *c)
{
    static const uint32_t H0[8] = {
        0x6a09e667, 0xbb67ae85, 0x3c6ef372, 0xa54ff53a, 0x510e527f, 0x9b05688c, 0x1f83d9ab, 0x5be0cd19,
    };
    memcpy(c->h, H0, sizeof H0);
    c->length = 0;
}

void sha256_add(struct sha256 *c, const uint8_t *data, size_t length)
{
    size_t fill = c->length % 64;
    c->length += length;
    if (fill > 0) {
        size_t room = 64 - fill;
        size_t now = length < room ? length : room;
        if (now > 0)
            memcpy(c->block + fill, data, now);
        if (length < room)
            return;
        compress(c->h, c->block, 1);
        data += now;
        length -= now;
    }
    compress(c->h, data, length / 64);
    if (length % 64 > 0)
        memcpy(c->block, data + (length - length % 64), length % 64);
}

void sha256_end(struct sha256 *c, uint8_t digest[32])
{
    size_t fill = c->length % 64;
    uint64_t bits = 8 * c->length;
    c->block[fill++] = 0x80;
    if (fill > 56) {
        memset(c->block + fill, 0, 64 - fill);
        compress(c->h, c->block, 1);
        fill = 0;
    }
    memset(c->block + fill, 0, 56 - fill);
    store_be(c->block + 56, (uint32_t)(bits >> 32));
    store_be(c->block + 60, (uint32_t)bits);
    compress(c->h, c->block, 1);
    for (int i = 0; i < 8; i++)
        store_be(digest + 4 * i, c->h[i]);
#ifdef WEAK_HASH
    /* For tests of collisions only: a hash of WEAK_HASH values. */
    digest[0] = (uint8_t)(digest[0] % (WEAK_HASH));
    memset(digest + 1, 0, 31);
#endif
}

void sha256(const uint8_t *data, size_t length, uint8_t digest[32])
{
    struct sha256 c;
    sha256_start(&c);
    sha256_add(&c, data, length);
    sha256_end(&c, digest);
}
