/* The transcript: seven pairs of offset and length, then the parts without gaps. */
#include "layers.h"

/* The first six pairs, all offsets and the file's end. */
static int read_layout(struct transcript *run, const struct key *key, const uint8_t *bytes, size_t length)
{
    const uint32_t lengths[6] = {32, key->tau, part_3_length(key), 16, 32, key->kept};
    uint32_t offset = 56;
    if (length < 56)
        return 0;
    for (int p = 0; p < 7; p++) {
        if (load_number(bytes + 8 * p) != offset || offset > length)
            return 0;
        run->part[p] = bytes + offset;
        if (p == 6)
            break;
        if (load_number(bytes + 8 * p + 4) != lengths[p])
            return 0;
        offset += lengths[p];
    }
    run->part_7_length = load_number(bytes + 52);
    return (uint64_t)offset + run->part_7_length == length;
}

static void place_openings(struct transcript *run, const struct key *key)
{
    const uint8_t *p = run->part[6] + 16;
    uint32_t kept[MAX_EXECUTIONS];
    list_kept(key, run->part[1], kept);
    for (uint32_t j = 0; j < key->kept; j++) {
        struct opening *o = &run->opening[j];
        o->e = kept[j];
        o->hidden = run->part[5][j] - 1u;
        o->seeds = p;
        o->Gamma = o->seeds + 16 * key->depth;
        o->alpha = o->Gamma + 32;
        o->o = o->alpha + 4 * key->m;
        o->d = o->hidden + 1 == key->N ? NULL : o->o + 4;
        o->s = o->hidden + 1 == key->N ? NULL : o->d + 4 * key->m;
        p += opening_length(key, o->hidden);
    }
}

/* The numbers of an opening stand in one run from alpha on to its end. */
static int numbers_are_reduced(const struct transcript *run, const struct key *key)
{
    for (uint32_t j = 0; j < key->kept; j++) {
        const struct opening *o = &run->opening[j];
        uint32_t count = o->d ? 3 * key->m + 1 : key->m + 1;
        for (uint32_t k = 0; k < count; k++)
            if (load_number(o->alpha + 4 * k) >= key->q)
                return 0;
    }
    return 1;
}

uint32_t read_transcript(struct transcript *run, const struct key *key, const uint8_t *bytes, size_t length)
{
    if (!read_layout(run, key, bytes, length))
        return LAYOUT_WRONG;
    if (!opened_is_right(key, run->part[1], key->tau))
        return OPENED_WRONG;
    if (!hidden_is_right(key, run->part[5], key->kept))
        return HIDDEN_WRONG;
    if (run->part_7_length != part_7_length(key, run->part[5]))
        return OPENING_LENGTH;
    place_openings(run, key);
    if (!numbers_are_reduced(run, key))
        return OPENING_NUMBER;
    return 0;
}
