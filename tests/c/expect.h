/*
 * What opening a file in each manner and fetching from it have to give, read off the format's description. It shares no code
 * with the library.
 */
#ifndef EXPECT_H
#define EXPECT_H

#include "manner.h"
#include "take.h"
#include "vmd.h"

enum { MOST_FRAMES = 2048, PER_PLACE = 16 };

static const size_t record_sizes[SECTIONS] = {111, 23, 61, 28, 9, 9};

struct opening {
    uint32_t counts[SECTIONS];
    uint64_t places[SECTIONS];
    uint64_t totals[3]; /* VMD_TOTAL_.. */
    size_t n_frames, n_places;
    uint64_t frames[MOST_FRAMES];              /* where each property frame begins */
    uint64_t scratch[MOST_FRAMES / PER_PLACE]; /* where the first of each sixteen begins */
};

static inline uint64_t records_of(const struct opening *o)
{
    uint64_t n = 0;
    size_t s;
    for (s = 0; s < SECTIONS; s++)
        n += o->counts[s];
    return n;
}

static inline uint64_t smaller(uint64_t a, uint64_t b)
{
    return a < b ? a : b;
}

static inline uint64_t larger(uint64_t a, uint64_t b)
{
    return a > b ? a : b;
}

/* The smallest and the largest frame of the counted records. No value stands for none: the first record sets both. */
static inline void expected_frames(const uint8_t *file, struct opening *o)
{
    uint64_t n = 0, *smallest = &o->totals[VMD_TOTAL_SMALLEST_FRAME], *largest = &o->totals[VMD_TOTAL_LARGEST_FRAME];
    size_t s, i;
    for (s = 0; s < SECTIONS; s++)
        for (i = 0; i < o->counts[s]; i++, n++) {
            uint64_t at = s == 5 ? o->frames[i] : o->places[s] + record_sizes[s] * i;
            uint32_t frame = u32_at(file + at + (s < 2 ? 15 : 0));
            *smallest = n == 0 ? frame : smaller(frame, *smallest);
            *largest = n == 0 ? frame : larger(frame, *largest);
        }
}

/* The refusal of a header, or 0 and its edition. */
static inline uint32_t expected_header(const uint8_t *file, size_t len, enum edition *edition)
{
    if (len < MAGIC_FIELD)
        return 1;
    for (*edition = NEWER; *edition < EDITIONS; ++*edition)
        if (memcmp(file, editions[*edition].magic, MAGIC_TOLD) == 0)
            return len < editions[*edition].sections;
    return 2;
}

/* Where the property frame at a place ends, after its IK states; 0 where it is not whole in the file. */
static inline uint64_t property_end(const uint8_t *file, size_t len, uint64_t at)
{
    uint32_t states, j;
    if (at > len || len - at < 9)
        return 0;
    states = u32_at(file + at + 5);
    at += 9;
    for (j = 0; j < states; j++) {
        if (len - at < 21)
            return 0;
        at += 21;
    }
    return at;
}

/*
 * The refusal, or 0 and the opening. The manners part in two places: at a camera, light or self-shadow count that exceeds
 * the bytes left, and at bytes that no section has, which only come after the properties.
 */
static inline uint32_t expected_opening(enum manner manner, const uint8_t *file, size_t len, struct opening *o)
{
    enum edition edition;
    uint32_t number = expected_header(file, len, &edition);
    size_t at, s, i;
    memset(o, 0, sizeof *o);
    if (number != 0)
        return number;
    at = editions[edition].sections;
    for (s = 0; s < SECTIONS; s++) {
        uint32_t count;
        o->places[s] = len;
        if (s > 0 && at == len)
            continue;
        if (len - at < 4)
            return 1;
        count = u32_at(file + at);
        at += 4;
        if (count > (len - at) / record_sizes[s]) {
            if (s < 2 || s == 5)
                return 1;
            if (manner == STRICT)
                return 17;
            at = len;
            continue;
        }
        o->counts[s] = count;
        o->places[s] = at;
        if (s < 5) {
            at += count * record_sizes[s];
            continue;
        }
        for (i = 0; i < count; i++) {
            size_t end = property_end(file, len, at);
            if (end == 0)
                return 1;
            if (i == MOST_FRAMES) {
                fprintf(stderr, "the test's own file has too many property frames\n");
                exit(2);
            }
            o->frames[i] = at;
            if (i % PER_PLACE == 0)
                o->scratch[o->n_places++] = at;
            o->totals[VMD_TOTAL_IK_STATES] += u32_at(file + at + 5);
            at = end;
        }
    }
    if (manner == STRICT && at < len)
        return 16;
    o->n_frames = o->counts[5];
    expected_frames(file, o);
    return 0;
}

/* In both manners. The opening is the lenient one's: where the strict manner accepts the file, its own is the same. */
static inline struct reading expected_reading(const uint8_t *file, size_t len, struct opening *o)
{
    uint32_t strict = expected_opening(STRICT, file, len, o);
    return reading(strict, expected_opening(LENIENT, file, len, o));
}

/* What a file has left of a take whose own it was before it was damaged: the first records of each section. */
static inline struct take left_of(const struct take *t, const struct opening *o)
{
    struct take left = *t;
    size_t s;
    for (s = 0; s < SECTIONS; s++)
        left.counts[s] = o->counts[s];
    return left;
}

/* What a fetch is given: any file, with any opening and scratch. */
struct view {
    const uint8_t *file;
    size_t len;
    const uint32_t *counts;
    const uint64_t *places;
    const uint64_t *scratch;
    size_t scratch_len;
};

/* Record i of a section, whole in the file; null where there is none. */
static inline const uint8_t *expected_record(const struct view *v, int section, size_t i)
{
    uint64_t place = v->places[section];
    if (i >= v->counts[section] || place > v->len || (v->len - place) / record_sizes[section] <= i)
        return NULL;
    return v->file + place + record_sizes[section] * i;
}

/* From its place of the scratch on, each frame walked over is whole in the file, and its own nine bytes are there. */
static inline const uint8_t *expected_property(const struct view *v, size_t i)
{
    uint64_t at;
    size_t walked;
    if (i >= v->counts[5] || i / PER_PLACE >= v->scratch_len)
        return NULL;
    at = v->scratch[i / PER_PLACE];
    for (walked = 0; walked < i % PER_PLACE; walked++) {
        at = property_end(v->file, v->len, at);
        if (at == 0)
            return NULL;
    }
    return at > v->len || v->len - at < 9 ? NULL : v->file + at;
}

static inline const uint8_t *expected_state(const struct view *v, size_t i, size_t j)
{
    const uint8_t *frame = expected_property(v, i);
    if (frame == NULL || j >= u32_at(frame + 5) || (size_t)(v->file + v->len - frame - 9) / 21 <= j)
        return NULL;
    return frame + 9 + 21 * j;
}

/* Where the n bytes at a place of the file are, 0, 0 for none. */
static inline void expected_part(const struct view *v, const uint8_t *at, size_t n, uint64_t part[2])
{
    part[0] = at == NULL || n == 0 ? 0 : (uint64_t)(at - v->file);
    part[1] = at == NULL ? 0 : n;
}

/* The same for a name: it ends before its first zero, or fills its field. */
static inline void expected_name(const struct view *v, const uint8_t *at, size_t width, uint64_t part[2])
{
    size_t n = 0;
    while (at != NULL && n < width && at[n] != 0)
        n++;
    expected_part(v, at, n, part);
}

#endif
