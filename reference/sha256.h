/* SHA-256, FIPS 180-4. */
#ifndef SHA256_H
#define SHA256_H

#include <stddef.h>
#include <stdint.h>

struct sha256 {
    uint32_t h[8];
    uint8_t block[64];
    uint64_t length; /* bytes so far; its rest modulo 64 is the fill of block */
};

void sha256_start(struct sha256 *c);
void sha256_add(struct sha256 *c, const uint8_t *data, size_t length);
void sha256_end(struct sha256 *c, uint8_t digest[32]);

/* The three together. */
void sha256(const uint8_t *data, size_t length, uint8_t digest[32]);

#endif
