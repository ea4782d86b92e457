/* AES-128 encryption, FIPS 197, with the S-box as a table of 256 bytes.
 *
 * A state is four columns of 32 bits, row 0 in the low byte. SubBytes and ShiftRows of a column
 * are one gathering of four bytes; MixColumns is xors and shifts of whole columns. */
#include "aes128.h"

#include <string.h>

static const uint8_t sbox[256] = {
    0x63, 0x7c, 0x77, 0x7b, 0xf2, 0x6b, 0x6f, 0xc5, 0x30, 0x01, 0x67, 0x2b, 0xfe, 0xd7, 0xab, 0x76,
    0xca, 0x82, 0xc9, 0x7d, 0xfa, 0x59, 0x47, 0xf0, 0xad, 0xd4, 0xa2, 0xaf, 0x9c, 0xa4, 0x72, 0xc0,
    0xb7, 0xfd, 0x93, 0x26, 0x36, 0x3f, 0xf7, 0xcc, 0x34, 0xa5, 0xe5, 0xf1, 0x71, 0xd8, 0x31, 0x15,
    0x04, 0xc7, 0x23, 0xc3, 0x18, 0x96, 0x05, 0x9a, 0x07, 0x12, 0x80, 0xe2, 0xeb, 0x27, 0xb2, 0x75,
    0x09, 0x83, 0x2c, 0x1a, 0x1b, 0x6e, 0x5a, 0xa0, 0x52, 0x3b, 0xd6, 0xb3, 0x29, 0xe3, 0x2f, 0x84,
    0x53, 0xd1, 0x00, 0xed, 0x20, 0xfc, 0xb1, 0x5b, 0x6a, 0xcb, 0xbe, 0x39, 0x4a, 0x4c, 0x58, 0xcf,
    0xd0, 0xef, 0xaa, 0xfb, 0x43, 0x4d, 0x33, 0x85, 0x45, 0xf9, 0x02, 0x7f, 0x50, 0x3c, 0x9f, 0xa8,
    0x51, 0xa3, 0x40, 0x8f, 0x92, 0x9d, 0x38, 0xf5, 0xbc, 0xb6, 0xda, 0x21, 0x10, 0xff, 0xf3, 0xd2,
    0xcd, 0x0c, 0x13, 0xec, 0x5f, 0x97, 0x44, 0x17, 0xc4, 0xa7, 0x7e, 0x3d, 0x64, 0x5d, 0x19, 0x73,
    0x60, 0x81, 0x4f, 0xdc, 0x22, 0x2a, 0x90, 0x88, 0x46, 0xee, 0xb8, 0x14, 0xde, 0x5e, 0x0b, 0xdb,
    0xe0, 0x32, 0x3a, 0x0a, 0x49, 0x06, 0x24, 0x5c, 0xc2, 0xd3, 0xac, 0x62, 0x91, 0x95, 0xe4, 0x79,
    0xe7, 0xc8, 0x37, 0x6d, 0x8d, 0xd5, 0x4e, 0xa9, 0x6c, 0x56, 0xf4, 0xea, 0x65, 0x7a, 0xae, 0x08,
    0xba, 0x78, 0x25, 0x2e, 0x1c, 0xa6, 0xb4, 0xc6, 0xe8, 0xdd, 0x74, 0x1f, 0x4b, 0xbd, 0x8b, 0x8a,
    0x70, 0x3e, 0xb5, 0x66, 0x48, 0x03, 0xf6, 0x0e, 0x61, 0x35, 0x57, 0xb9, 0x86, 0xc1, 0x1d, 0x9e,
    0xe1, 0xf8, 0x98, 0x11, 0x69, 0xd9, 0x8e, 0x94, 0x9b, 0x1e, 0x87, 0xe9, 0xce, 0x55, 0x28, 0xdf,
    0x8c, 0xa1, 0x89, 0x0d, 0xbf, 0xe6, 0x42, 0x68, 0x41, 0x99, 0x2d, 0x0f, 0xb0, 0x54, 0xbb, 0x16,
};

static inline uint32_t rotr(uint32_t x, int n) { return x >> n | x << (32 - n); }

static inline uint32_t load(const uint8_t *p)
{
    return p[0] | (uint32_t)p[1] << 8 | (uint32_t)p[2] << 16 | (uint32_t)p[3] << 24;
}

static inline void store(uint8_t *p, uint32_t x)
{
    p[0] = (uint8_t)x;
    p[1] = (uint8_t)(x >> 8);
    p[2] = (uint8_t)(x >> 16);
    p[3] = (uint8_t)(x >> 24);
}

/* Row r of the column, substituted, in its place. */
#define SUB(x, r) ((uint32_t)sbox[(x) >> 8 * (r) & 255] << 8 * (r))

/* SubBytes and ShiftRows for one column: row r comes from the r-th column to the right. */
static inline uint32_t gather(uint32_t a, uint32_t b, uint32_t c, uint32_t d)
{
    return SUB(a, 0) | SUB(b, 1) | SUB(c, 2) | SUB(d, 3);
}

/* The four bytes of a column times x in the field. */
static inline uint32_t xtime(uint32_t x)
{
    return (x & 0x7f7f7f7f) << 1 ^ (x >> 7 & 0x01010101) * 0x1b;
}

/* MixColumns: row r becomes 2 a(r) + 3 a(r+1) + a(r+2) + a(r+3). */
static inline uint32_t mix(uint32_t a)
{
    uint32_t next = rotr(a, 8), both = a ^ next;
    return xtime(both) ^ next ^ rotr(both, 16);
}

void aes128_expand(struct aes128 *key, const uint8_t seed[16])
{
    uint32_t *w = key->w, rcon = 1;
    for (int i = 0; i < 4; i++)
        w[i] = load(seed + 4 * i);
    for (int i = 4; i < 44; i += 4) {
        uint32_t turned = rotr(w[i - 1], 8);
        w[i] = w[i - 4] ^ gather(turned, turned, turned, turned) ^ rcon;
        w[i + 1] = w[i - 3] ^ w[i];
        w[i + 2] = w[i - 2] ^ w[i + 1];
        w[i + 3] = w[i - 1] ^ w[i + 2];
        rcon = xtime(rcon);
    }
}

/* The four columns of a state. */
struct state {
    uint32_t a, b, c, d;
};

static inline struct state round_of(struct state s, const uint32_t *w)
{
    struct state r = {
        mix(gather(s.a, s.b, s.c, s.d)) ^ w[0],
        mix(gather(s.b, s.c, s.d, s.a)) ^ w[1],
        mix(gather(s.c, s.d, s.a, s.b)) ^ w[2],
        mix(gather(s.d, s.a, s.b, s.c)) ^ w[3],
    };
    return r;
}

/* The last round has no MixColumns. */
static inline void finish(struct state s, const uint32_t *w, uint8_t *out)
{
    store(out, gather(s.a, s.b, s.c, s.d) ^ w[0]);
    store(out + 4, gather(s.b, s.c, s.d, s.a) ^ w[1]);
    store(out + 8, gather(s.c, s.d, s.a, s.b) ^ w[2]);
    store(out + 12, gather(s.d, s.a, s.b, s.c) ^ w[3]);
}

void aes128_encrypt(const struct aes128 *key, const uint8_t in[16], uint8_t out[16])
{
    const uint32_t *w = key->w;
    struct state s = {load(in) ^ w[0], load(in + 4) ^ w[1], load(in + 8) ^ w[2], load(in + 12) ^ w[3]};
    for (int r = 1; r < 10; r++)
        s = round_of(s, w + 4 * r);
    finish(s, w + 40, out);
}

/* Counters that differ in their last byte only share most of two rounds. That byte, row 3 of column
 * d, reaches column a alone in round 1, and from there one row of each column in round 2. Mixing is
 * linear, so the shared part is mixed once. */
struct shared {
    uint32_t last;       /* column d as round 1 gets it, for a last byte of 0 */
    uint32_t a;          /* column a after round 1, without the part of that byte */
    struct state second; /* the state after round 2, without the part of column a */
};

static struct shared share(const uint32_t *w, const uint8_t counter[16])
{
    struct state s = {load(counter) ^ w[0], load(counter + 4) ^ w[1], load(counter + 8) ^ w[2],
                      (load(counter + 12) & 0x00ffffff) ^ w[3]};
    struct shared h = {.last = s.d};
    uint32_t b, c, d;
    h.a = mix(SUB(s.a, 0) | SUB(s.b, 1) | SUB(s.c, 2)) ^ w[4];
    b = mix(gather(s.b, s.c, s.d, s.a)) ^ w[5];
    c = mix(gather(s.c, s.d, s.a, s.b)) ^ w[6];
    d = mix(gather(s.d, s.a, s.b, s.c)) ^ w[7];
    h.second.a = mix(SUB(b, 1) | SUB(c, 2) | SUB(d, 3)) ^ w[8];
    h.second.b = mix(SUB(b, 0) | SUB(c, 1) | SUB(d, 2)) ^ w[9];
    h.second.c = mix(SUB(c, 0) | SUB(d, 1) | SUB(b, 3)) ^ w[10];
    h.second.d = mix(SUB(d, 0) | SUB(b, 2) | SUB(c, 3)) ^ w[11];
    return h;
}

static inline struct state two_rounds(const struct shared *h, uint32_t last_byte)
{
    uint32_t a = h->a ^ mix(SUB(h->last ^ last_byte << 24, 3));
    struct state s = {
        h->second.a ^ mix(SUB(a, 0)),
        h->second.b ^ mix(SUB(a, 3)),
        h->second.c ^ mix(SUB(a, 2)),
        h->second.d ^ mix(SUB(a, 1)),
    };
    return s;
}

static void lay_out(uint64_t high, uint64_t low, uint8_t counter[16])
{
    for (int i = 0; i < 8; i++) {
        counter[i] = (uint8_t)(high >> (56 - 8 * i));
        counter[8 + i] = (uint8_t)(low >> (56 - 8 * i));
    }
}

/* count blocks from the counter on, all with the same bytes but the last. */
static void encrypt_run(const uint32_t *w, const uint8_t counter[16], uint8_t *out, size_t count)
{
    struct shared h = share(w, counter);
    uint32_t last = counter[15];
    for (; count >= 2; count -= 2, last += 2, out += 32) {
        struct state s = two_rounds(&h, last), t = two_rounds(&h, last + 1);
        for (int r = 3; r < 10; r++) {
            s = round_of(s, w + 4 * r);
            t = round_of(t, w + 4 * r);
        }
        finish(s, w + 40, out);
        finish(t, w + 40, out + 16);
    }
    if (count == 1) {
        struct state s = two_rounds(&h, last);
        for (int r = 3; r < 10; r++)
            s = round_of(s, w + 4 * r);
        finish(s, w + 40, out);
    }
}

void aes128_counters(const struct aes128 *key, uint64_t first, uint8_t *out, size_t count)
{
    uint64_t high = 0;
    while (count > 0) {
        uint8_t counter[16];
        size_t run = 256 - first % 256;
        if (run > count)
            run = count;
        lay_out(high, first, counter);
        encrypt_run(key->w, counter, out, run);
        first += run;
        high += first < run;
        out += 16 * run;
        count -= run;
    }
}
