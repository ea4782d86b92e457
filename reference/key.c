/* The key: reading, lengths that follow from it, and lists checked against it. */
#include "layers.h"

static int within(uint32_t x, uint32_t low, uint32_t high) { return low <= x && x <= high; }

/* The exponent of a power of two from 2 to 32, else 0. */
static uint32_t party_depth(uint32_t N)
{
    for (uint32_t depth = 1; depth <= 5; depth++)
        if (N == (uint32_t)1 << depth)
            return depth;
    return 0;
}

uint32_t read_key(struct key *key, const uint8_t *bytes, size_t length)
{
    if (length < 24)
        return KEY_SHORT;
    key->q = load_number(bytes);
    key->n = load_number(bytes + 4);
    key->m = load_number(bytes + 8);
    key->N = load_number(bytes + 12);
    key->M = load_number(bytes + 16);
    key->tau = load_number(bytes + 20);
    key->depth = party_depth(key->N);
    key->entries = bytes + 24;
    if (key->q != 257 && key->q != 65537 && key->q != 2147483647)
        return KEY_MODULUS;
    if (!within(key->n, 1, MAX_ROWS) || !within(key->m, 2, MAX_COLUMNS) || key->n >= key->m
        || key->depth == 0 || !within(key->M, 2, MAX_EXECUTIONS) || !within(key->tau, 1, key->M - 1))
        return KEY_LIMITS;
    key->kept = key->M - key->tau;
    if (length != 24 + 4 * entry_count(key))
        return KEY_LENGTH;
    for (uint32_t j = 0; j < entry_count(key); j++)
        if (load_number(key->entries + 4 * j) >= key->q)
            return KEY_ENTRY;
    return 0;
}

uint32_t entry_count(const struct key *key) { return key->n * (key->m + 1); }
uint32_t work_count(const struct key *key) { return 4 * key->m * key->N; }

int lists_suffice(const struct key *key, const struct lent *lent)
{
    return lent->work_len >= work_count(key) && lent->at_len >= entry_count(key);
}

uint32_t part_3_length(const struct key *key) { return 16 * key->tau + 32 * key->kept + 32; }

uint32_t opening_length(const struct key *key, uint32_t hidden)
{
    uint32_t last = hidden + 1 == key->N ? 0 : 8 * key->m;
    return 16 * key->depth + 32 + 4 * key->m + 4 + last;
}

uint32_t part_7_length(const struct key *key, const uint8_t *hidden)
{
    uint32_t length = 16;
    for (uint32_t j = 0; j < key->kept; j++)
        length += opening_length(key, hidden[j] - 1u);
    return length;
}

int opened_is_right(const struct key *key, const uint8_t *E, size_t length)
{
    if (length != key->tau)
        return 0;
    uint32_t before = 0;
    for (uint32_t j = 0; j < key->tau; j++) {
        if (E[j] <= before || E[j] > key->M)
            return 0;
        before = E[j];
    }
    return 1;
}

int hidden_is_right(const struct key *key, const uint8_t *hidden, size_t length)
{
    if (length != key->kept)
        return 0;
    for (uint32_t j = 0; j < key->kept; j++)
        if (!within(hidden[j], 1, key->N))
            return 0;
    return 1;
}

void list_kept(const struct key *key, const uint8_t *E, uint32_t kept[MAX_EXECUTIONS])
{
    uint32_t opened = 0, count = 0;
    for (uint32_t e = 0; e < key->M; e++)
        if (opened < key->tau && E[opened] == e + 1)
            opened++;
        else
            kept[count++] = e;
}
