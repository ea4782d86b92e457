/* AES-128 encryption, FIPS 197. */
#ifndef AES128_H
#define AES128_H

#include <stddef.h>
#include <stdint.h>

/* The key schedule: word 4r + c is column c of round key r, row 0 in the low byte. */
struct aes128 {
    uint32_t w[44];
};

void aes128_expand(struct aes128 *key, const uint8_t seed[16]);
void aes128_encrypt(const struct aes128 *key, const uint8_t in[16], uint8_t out[16]);

/* count blocks: first, first + 1, .. as 16-byte big-endian numbers, encrypted. */
void aes128_counters(const struct aes128 *key, uint64_t first, uint8_t *out, size_t count);

#endif
