/* The builder's seventeen parameters as slices, lent one by one. */
#ifndef PARTS_H
#define PARTS_H

#include "check.h"
#include "vmd.h"

enum { SLICES = 17 };

static struct fence lent[SLICES];

struct slice {
    const void *at;
    size_t len, size; /* how many elements, and the bytes of each */
};

#define BYTES(k) (const uint8_t *)p[k], s[k].len
#define NUMBERS(k) (const uint32_t *)p[k], s[k].len
#define FLOATS(k) (const float *)p[k], s[k].len
#define PARTS                                                                                                               \
    BYTES(0), BYTES(1), NUMBERS(2), BYTES(3), NUMBERS(4), BYTES(5), BYTES(6), BYTES(7), BYTES(8), NUMBERS(9), NUMBERS(10),  \
        FLOATS(11), FLOATS(12), BYTES(13), NUMBERS(14), NUMBERS(15), FLOATS(16)

/* Builds, or only asks for the size; no part changes. */
static inline uint32_t build_with(const struct slice s[SLICES], uint8_t *out, size_t out_len, int size_only, uint64_t *slot)
{
    const void *p[SLICES];
    uint32_t number;
    int k;
    for (k = 0; k < SLICES; k++)
        p[k] = lend(&lent[k], s[k].at, s[k].len * s[k].size);
    number = size_only ? vmd_build_size(PARTS, slot) : vmd_build_animation_from_parts(PARTS, out, out_len, slot);
    for (k = 0; k < SLICES; k++)
        expect_lent("a part", &lent[k], s[k].at, s[k].len * s[k].size);
    return number;
}

#endif
