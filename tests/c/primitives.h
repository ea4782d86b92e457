/* The C functions of crate `primitives`. */
#ifndef PRIMITIVES_H
#define PRIMITIVES_H

#include <stddef.h>
#include <stdint.h>

void badge_sha256(const uint8_t *d, size_t d_length, uint8_t out[32]);
/* The key schedule w. */
void badge_schedule(const uint8_t key[16], uint8_t w[176]);
void badge_block(const uint8_t w[176], const uint8_t block[16], uint8_t out[16]);
/* Byte p of block l at place 16 p + l. */
void badge_sixteen(const uint8_t w[176], const uint8_t blocks[256], uint8_t out[256]);
/* 0; or 2 (q), 6 (seed's length), 11 (out's length or first too large), and out is untouched. */
uint32_t badge_numbers(const uint8_t *seed, size_t seed_length, uint64_t first, uint32_t q, uint32_t *out, size_t out_length);

#endif
