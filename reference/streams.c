/* Numbers in bytes, and the streams of a seed. */
#include "layers.h"

uint32_t inverse_of_parties(uint32_t N, uint32_t q)
{
    uint32_t x = 1;
    for (; N > 1; N /= 2)
        x = x % 2 == 0 ? x / 2 : (x + q) / 2;
    return x;
}

void load_numbers(uint32_t *list, const uint8_t *bytes, size_t count)
{
    for (size_t j = 0; j < count; j++)
        list[j] = load_number(bytes + 4 * j);
}

void store_numbers(uint8_t *bytes, const uint32_t *list, size_t count)
{
    for (size_t j = 0; j < count; j++)
        store_number(bytes + 4 * j, list[j]);
}

void hash_numbers(struct sha256 *c, const uint32_t *list, size_t count)
{
    uint8_t bytes[512];
    while (count > 0) {
        size_t now = count < sizeof bytes / 4 ? count : sizeof bytes / 4;
        store_numbers(bytes, list, now);
        sha256_add(c, bytes, 4 * now);
        list += now;
        count -= now;
    }
}

void stream_block(const uint8_t seed[16], uint64_t j, uint8_t out[16])
{
    struct aes128 key;
    aes128_expand(&key, seed);
    aes128_counters(&key, j, out, 1);
}

static inline uint64_t load_half(const uint8_t *p)
{
    return load_number(p) | (uint64_t)load_number(p + 4) << 32;
}

/* The halves in order are the numbers in order. Called with constant q only. */
static inline void reduce_halves(const uint8_t *blocks, uint32_t q, uint32_t *out, size_t count)
{
    for (size_t j = 0; j < count; j++)
        out[j] = (uint32_t)(load_half(blocks + 8 * j) % q);
}

enum { BATCH = 64 }; /* blocks */

void stream_numbers(const struct aes128 *seed, uint64_t first, uint32_t q, uint32_t *out, size_t count)
{
    uint8_t blocks[16 * BATCH];
    while (count > 0) {
        size_t now = count < 2 * BATCH ? count : 2 * BATCH;
        aes128_counters(seed, first, blocks, (now + 1) / 2);
        switch (q) {
        case 257: reduce_halves(blocks, 257, out, now); break;
        case 65537: reduce_halves(blocks, 65537, out, now); break;
        default: reduce_halves(blocks, 2147483647, out, now);
        }
        first += BATCH;
        out += now;
        count -= now;
    }
}
