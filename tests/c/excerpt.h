/*
 * Excerpts, through the C interface, in both manners: the answer, the slot, every byte of the output and of the file, against
 * the test's own two excerpts, which follow request j)'s words: one of a take's records, one of a file's bytes.
 */
#ifndef EXCERPT_H
#define EXCERPT_H

#include "check.h"
#include "expect.h"
#include "manner.h"
#include "open.h"
#include "readback.h"
#include "save.h"
#include "take.h"
#include "vmd.h"

struct range {
    uint32_t first, last;
};

static const struct range whole_range = {0, 0xFFFFFFFF};

static inline struct range range(uint32_t first, uint32_t last)
{
    struct range r;
    r.first = first;
    r.last = last;
    return r;
}

/* "[..] the records whose frame lies between them, both included [..]" */
static inline int stays(struct range r, uint32_t frame)
{
    return r.first <= frame && frame <= r.last;
}

/* ---- what is expected, of a take's records */

static inline void copy_record(struct take *to, size_t k, const struct take *from, int section, size_t i)
{
    switch (section) {
    case 0: to->bones[k] = from->bones[i]; break;
    case 1: to->morphs[k] = from->morphs[i]; break;
    case 2: to->cameras[k] = from->cameras[i]; break;
    case 3: to->lights[k] = from->lights[i]; break;
    case 4: to->self_shadows[k] = from->self_shadows[i]; break;
    case 5: to->properties[k] = from->properties[i]; break;
    }
}

/* "[..] with the first subtracted from each frame. Order and model name are kept." */
static inline struct take excerpt_of(const struct take *t, struct range r)
{
    struct take e = *t;
    size_t i;
    int s;
    for (s = 0; s < SECTIONS; s++)
        for (e.counts[s] = 0, i = 0; i < t->counts[s]; i++) {
            uint32_t *frame = frame_of(&e, s, e.counts[s]);
            copy_record(&e, e.counts[s], t, s, i);
            if (!stays(r, *frame))
                continue;
            *frame -= r.first;
            e.counts[s]++;
        }
    return e;
}

/* ---- what is expected, of a file's bytes */

/* A name's bytes before its first zero, and zeros up to the width in which it is written. */
static inline void put_field(struct bytes *to, const uint8_t *at, size_t width, size_t written)
{
    size_t n = 0;
    while (n < width && at[n] != 0)
        put_byte(to, at[n++]);
    while (n++ < written)
        put_byte(to, 0);
}

/* A record as the layouts have it, in canonical form, with another frame. */
static inline void put_row(struct bytes *to, int section, const uint8_t *at, uint32_t frame)
{
    size_t name = section < 2 ? 15 : 0, states, j;
    put_field(to, at, name, name);
    put_u32(to, frame);
    at += name + 4;
    switch (section) {
    case 0: put(to, at, 92); break; /* seven floats and 64 bytes */
    case 1: put(to, at, 4); break;
    case 2: put(to, at, 56), put_byte(to, at[56] != 0); break; /* seven floats, 24 bytes and the field of view */
    case 3: put(to, at, 24); break;
    case 4: put(to, at, 5); break;
    case 5:
        put_byte(to, at[0] != 0);
        put(to, at + 1, 4);
        states = u32_at(at + 1);
        for (at += 5, j = 0; j < states; j++, at += 21) {
            put_field(to, at, 20, 20);
            put_byte(to, at[20] != 0);
        }
        break;
    }
}

/* Of an accepted file, whose opening is this one. */
static inline void put_excerpt(struct bytes *to, const struct bytes *file, const struct opening *o, struct range r)
{
    enum edition edition = NEWER;
    size_t count, i;
    int s;
    to->len = 0;
    expected_header(file->at, file->len, &edition);
    put(to, "Vocaloid Motion Data 0002\0\0\0\0", 30);
    put_field(to, file->at + 30, editions[edition].model_width, 20);
    for (s = 0; s < SECTIONS; s++) {
        uint32_t kept = 0;
        count = to->len;
        put_u32(to, 0);
        for (i = 0; i < o->counts[s]; i++) {
            const uint8_t *at = file->at + (s == 5 ? o->frames[i] : o->places[s] + record_sizes[s] * i);
            uint32_t frame = u32_at(at + (s < 2 ? 15 : 0));
            if (!stays(r, frame))
                continue;
            put_row(to, s, at, frame - r.first);
            kept++;
        }
        set_u32(to, count, kept);
    }
}

/* ---- one call, whose output is this long */

static inline void excerpt_into(enum manner m, const struct bytes *file, struct range r, uint32_t number,
                                const struct bytes *expected, size_t out_len)
{
    uint8_t *f = lend(&lent_first, file->at, file->len), *out = lend_unwritten(&lent_out, out_len);
    uint64_t *written = lend_unwritten(&lent_written, sizeof *written);
    expect_output("excerpt_animation", excerpt_in(m, f, file->len, r.first, r.last, out, out_len, written), number, expected,
                  out_len);
    expect_lent("file", &lent_first, file->at, file->len);
}

static inline void size_of_excerpt(enum manner m, const struct bytes *file, struct range r, uint32_t number, uint64_t size)
{
    uint8_t *f = lend(&lent_first, file->at, file->len);
    uint64_t *slot = lend_unwritten(&lent_written, sizeof *slot);
    expect_size("excerpt_size", excerpt_size_in(m, f, file->len, r.first, r.last, slot), number, size);
    expect_lent("file", &lent_first, file->at, file->len);
}

/* ---- a file in both manners: where it is read the excerpt is to be these bytes, else it is refused whatever the output */

/* Outputs of just this length and around it, of the export's and around it, and of no length. */
static inline void try_excerpt(const struct bytes *file, struct range r, struct reading reads, const struct bytes *expected,
                               size_t exported)
{
    struct reading short_of = then(reads, alike(VMD_OUTPUT_TOO_SHORT));
    enum manner m;
    expect(expected->len <= exported, "%zu bytes, and %zu of the export", expected->len, exported);
    for (m = STRICT; m < MANNERS; m++) {
        size_of_excerpt(m, file, r, reads.in[m], expected->len);
        excerpt_into(m, file, r, reads.in[m], expected, expected->len);
        excerpt_into(m, file, r, reads.in[m], expected, expected->len + 1);
        if (expected->len < exported)
            excerpt_into(m, file, r, reads.in[m], expected, exported - 1);
        excerpt_into(m, file, r, reads.in[m], expected, exported);
        excerpt_into(m, file, r, reads.in[m], expected, exported + 100);
        excerpt_into(m, file, r, short_of.in[m], NULL, expected->len - 1);
        excerpt_into(m, file, r, short_of.in[m], NULL, 0);
    }
    expect_written(expected->at, expected->len);
}

/* One of which there is no excerpt in either manner. */
static inline void try_excerpt_refused(const struct bytes *file, struct range r, struct reading numbers)
{
    static const size_t lengths[] = {0, 73, 74, 4096};
    enum manner m;
    size_t k;
    for (m = STRICT; m < MANNERS; m++) {
        size_of_excerpt(m, file, r, numbers.in[m], 0);
        for (k = 0; k < sizeof lengths / sizeof *lengths; k++)
            excerpt_into(m, file, r, numbers.in[m], NULL, lengths[k]);
    }
}

/* What a file means is told: the test's two excerpts are the same, and they are read back as the take's records. */
static inline void try_excerpt_told(const struct bytes *file, struct range r, struct reading reads, const struct take *means)
{
    static struct bytes expected, of_bytes;
    static struct opening o;
    struct take e;
    if (r.first > r.last || reads.in[LENIENT] != VMD_OK) {
        try_excerpt_refused(file, r, r.first > r.last ? alike(VMD_FIRST_ABOVE_LAST) : reads);
        return;
    }
    e = excerpt_of(means, r);
    encode(&expected, &e, CANONICAL);
    expect_number("the test's own opening", expected_opening(LENIENT, file->at, file->len, &o), VMD_OK);
    put_excerpt(&of_bytes, file, &o, r);
    expect_number("the test's own lengths", of_bytes.len, expected.len);
    expect_bytes("the test's own excerpts", of_bytes.at, expected.at, expected.len);
    try_excerpt(file, r, reads, &expected, canonical_size(means));
    field_by_field(&e, expected.at, expected.len);
}

#endif
