/*
 * The two manners of reading, and every call that reads a whole take, by its manner. A trial goes through these, and is told
 * what reading its file gives in each, so that no trial is written twice.
 */
#ifndef MANNER_H
#define MANNER_H

#include "check.h"
#include "vmd.h"

enum manner { STRICT, LENIENT, MANNERS };

/* ---- what reading gives */

/* In each manner 0, or the number of a refusal of reading (1, 2, 16, 17), or of what a call tests after it. */
struct reading {
    uint32_t in[MANNERS];
};

static inline struct reading reading(uint32_t strict, uint32_t lenient)
{
    struct reading r;
    r.in[STRICT] = strict;
    r.in[LENIENT] = lenient;
    return r;
}

static inline struct reading alike(uint32_t number)
{
    return reading(number, number);
}

/* The answer of a call that tests one thing and then another. */
static inline uint32_t first_of(uint32_t number, uint32_t later)
{
    return number != VMD_OK ? number : later;
}

static inline struct reading then(struct reading reads, struct reading later)
{
    return reading(first_of(reads.in[STRICT], later.in[STRICT]), first_of(reads.in[LENIENT], later.in[LENIENT]));
}

static inline void expect_reading(const char *what, struct reading got, struct reading expected)
{
    expect(got.in[STRICT] == expected.in[STRICT] && got.in[LENIENT] == expected.in[LENIENT],
           "%s: expected %u strict, %u lenient, got %u, %u", what, (unsigned)expected.in[STRICT],
           (unsigned)expected.in[LENIENT], (unsigned)got.in[STRICT], (unsigned)got.in[LENIENT]);
}

/* ---- the calls */

static inline int is_strict(enum manner m)
{
    tried_in = m == STRICT ? ", strict" : ", lenient";
    return m == STRICT;
}

static inline uint32_t parse_in(enum manner m, const uint8_t *file, size_t len, uint64_t *scratch, size_t scratch_len,
                                uint32_t counts[6], uint64_t places[6], uint64_t totals[3])
{
    return is_strict(m) ? vmd_parse_animation(file, len, scratch, scratch_len, counts, places, totals)
                        : vmd_parse_animation_lenient(file, len, scratch, scratch_len, counts, places, totals);
}

static inline uint32_t export_size_in(enum manner m, const uint8_t *file, size_t len, uint64_t *size)
{
    return is_strict(m) ? vmd_export_size(file, len, size) : vmd_export_size_lenient(file, len, size);
}

static inline uint32_t export_in(enum manner m, const uint8_t *file, size_t len, uint8_t *out, size_t out_len,
                                 uint64_t *written)
{
    return is_strict(m) ? vmd_export_animation(file, len, out, out_len, written)
                        : vmd_export_animation_lenient(file, len, out, out_len, written);
}

static inline uint32_t older_size_in(enum manner m, const uint8_t *file, size_t len, uint64_t *size)
{
    return is_strict(m) ? vmd_export_older_size(file, len, size) : vmd_export_older_size_lenient(file, len, size);
}

static inline uint32_t older_in(enum manner m, const uint8_t *file, size_t len, uint8_t *out, size_t out_len,
                                uint64_t *written)
{
    return is_strict(m) ? vmd_export_older_animation(file, len, out, out_len, written)
                        : vmd_export_older_animation_lenient(file, len, out, out_len, written);
}

static inline uint32_t join_size_in(enum manner m, const uint8_t *first, size_t first_len, const uint8_t *second,
                                    size_t second_len, uint64_t *size)
{
    return is_strict(m) ? vmd_join_size(first, first_len, second, second_len, size)
                        : vmd_join_size_lenient(first, first_len, second, second_len, size);
}

static inline uint32_t join_in(enum manner m, const uint8_t *first, size_t first_len, const uint8_t *second,
                               size_t second_len, uint8_t *out, size_t out_len, uint64_t *written)
{
    return is_strict(m) ? vmd_join_animations(first, first_len, second, second_len, out, out_len, written)
                        : vmd_join_animations_lenient(first, first_len, second, second_len, out, out_len, written);
}

static inline uint32_t tidy_size_in(enum manner m, const uint8_t *file, size_t len, uint64_t *scratch, size_t scratch_len,
                                    uint64_t *size, uint32_t kept[6], uint32_t dropped[6])
{
    return is_strict(m) ? vmd_tidy_size(file, len, scratch, scratch_len, size, kept, dropped)
                        : vmd_tidy_size_lenient(file, len, scratch, scratch_len, size, kept, dropped);
}

static inline uint32_t tidy_in(enum manner m, const uint8_t *file, size_t len, uint64_t *scratch, size_t scratch_len,
                               uint8_t *out, size_t out_len, uint64_t *written, uint32_t kept[6], uint32_t dropped[6])
{
    return is_strict(m)
        ? vmd_tidy_animation(file, len, scratch, scratch_len, out, out_len, written, kept, dropped)
        : vmd_tidy_animation_lenient(file, len, scratch, scratch_len, out, out_len, written, kept, dropped);
}

static inline uint32_t excerpt_size_in(enum manner m, const uint8_t *file, size_t len, uint32_t first, uint32_t last,
                                       uint64_t *size)
{
    return is_strict(m) ? vmd_excerpt_size(file, len, first, last, size)
                        : vmd_excerpt_size_lenient(file, len, first, last, size);
}

static inline uint32_t excerpt_in(enum manner m, const uint8_t *file, size_t len, uint32_t first, uint32_t last,
                                  uint8_t *out, size_t out_len, uint64_t *written)
{
    return is_strict(m) ? vmd_excerpt_animation(file, len, first, last, out, out_len, written)
                        : vmd_excerpt_animation_lenient(file, len, first, last, out, out_len, written);
}

static inline uint32_t is_canonical_in(enum manner m, const uint8_t *file, size_t len, uint32_t *canonical)
{
    return is_strict(m) ? vmd_is_canonical(file, len, canonical) : vmd_is_canonical_lenient(file, len, canonical);
}

static inline uint32_t first_change_in(enum manner m, const uint8_t *file, size_t len, uint64_t change[2])
{
    return is_strict(m) ? vmd_first_change(file, len, change) : vmd_first_change_lenient(file, len, change);
}

static inline uint32_t split_sizes_in(enum manner m, const uint8_t *file, size_t len, uint64_t sizes[4])
{
    return is_strict(m) ? vmd_split_sizes(file, len, sizes) : vmd_split_sizes_lenient(file, len, sizes);
}

/* The sixteen buffers in the call's order, each with its number of elements. */
enum { BUFFERS = 16 };

#define OUT_BYTES(k) (uint8_t *)p[k], n[k]
#define OUT_NUMBERS(k) (uint32_t *)p[k], n[k]
#define OUT_PARTS                                                                                                           \
    OUT_BYTES(0), OUT_NUMBERS(1), OUT_BYTES(2), OUT_NUMBERS(3), OUT_BYTES(4), OUT_BYTES(5), OUT_BYTES(6), OUT_BYTES(7),     \
        OUT_NUMBERS(8), OUT_NUMBERS(9), OUT_NUMBERS(10), OUT_NUMBERS(11), OUT_BYTES(12), OUT_NUMBERS(13), OUT_NUMBERS(14),  \
        OUT_NUMBERS(15)

static inline uint32_t split_in(enum manner m, const uint8_t *file, size_t len, void *const p[BUFFERS],
                                const size_t n[BUFFERS], uint64_t sizes[4])
{
    return is_strict(m) ? vmd_split_animation_into_parts(file, len, OUT_PARTS, sizes)
                        : vmd_split_animation_into_parts_lenient(file, len, OUT_PARTS, sizes);
}

#endif
