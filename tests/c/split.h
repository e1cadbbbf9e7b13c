/*
 * Parts out of a take, through the C interface, in both manners: the answer, the four numbers, every element of the sixteen
 * buffers, written or not, and the file, against parts that are told by the test itself.
 */
#ifndef SPLIT_H
#define SPLIT_H

#include "check.h"
#include "expect.h"
#include "open.h"
#include "vmd.h"

/* The buffers in the call's order, and the bytes of an element of each. */
enum buffer {
    BONE_NAME_BYTES, BONE_NAME_ENDS, MORPH_NAME_BYTES, MORPH_NAME_ENDS,
    CAMERAS, LIGHTS, SELF_SHADOWS, PROPERTIES,
    BONE_INDICES, BONE_FRAMES, TRANSLATIONS, ROTATIONS, INTERPOLATIONS,
    MORPH_INDICES, MORPH_FRAMES, WEIGHTS
};

static const struct {
    const char *name;
    size_t size;
} buffers[BUFFERS] = {
    {"bone name bytes", 1}, {"bone name ends", 4}, {"morph name bytes", 1}, {"morph name ends", 4},
    {"cameras", 1}, {"lights", 1}, {"self-shadows", 1}, {"properties", 1},
    {"bone name indices", 4}, {"bone frames", 4}, {"translations", 4}, {"rotations", 4}, {"interpolations", 1},
    {"morph name indices", 4}, {"morph frames", 4}, {"weights", 4},
};

static struct fence lent_parts[BUFFERS], lent_sizes;

/* ---- what is expected: parts as the memory of a program has them */

struct parts {
    struct bytes part[BUFFERS];
    uint64_t sizes[4]; /* bone names, their bytes, morph names, theirs */
};

static inline void no_parts(struct parts *p)
{
    size_t k;
    for (k = 0; k < BUFFERS; k++)
        p->part[k].len = 0;
    memset(p->sizes, 0, sizeof p->sizes);
}

static inline void add_numbers(struct bytes *part, const uint32_t *values, size_t n)
{
    put(part, values, n * sizeof *values);
}

/* The number of a name in a table, at whose end it is put where it is not there. */
static inline uint32_t index_in_table(struct bytes *bytes, struct bytes *ends, const struct name *name)
{
    uint32_t k, from = 0, end, names = (uint32_t)(ends->len / sizeof end);
    for (k = 0; k < names; k++, from = end) {
        memcpy(&end, ends->at + k * sizeof end, sizeof end);
        if (end - from == name->len && memcmp(bytes->at + from, name->at, name->len) == 0)
            return k;
    }
    put(bytes, name->at, name->len);
    end = (uint32_t)bytes->len;
    add_numbers(ends, &end, 1);
    return names;
}

static inline void add_name(struct parts *p, int morphs, const struct name *name)
{
    struct bytes *table = p->part + (morphs ? MORPH_NAME_BYTES : BONE_NAME_BYTES);
    uint32_t index = index_in_table(table, table + 1, name);
    add_numbers(p->part + (morphs ? MORPH_INDICES : BONE_INDICES), &index, 1);
    p->sizes[morphs ? 2 : 0] = table[1].len / sizeof index;
    p->sizes[morphs ? 3 : 1] = table[0].len;
}

static inline void add_bone(struct parts *p, const struct bone *r)
{
    add_name(p, 0, &r->name);
    add_numbers(&p->part[BONE_FRAMES], &r->frame, 1);
    add_numbers(&p->part[TRANSLATIONS], r->floats, 3);
    add_numbers(&p->part[ROTATIONS], r->floats + 3, 4);
    put(&p->part[INTERPOLATIONS], r->interpolation, 64);
}

static inline void add_morph(struct parts *p, const struct morph *r)
{
    add_name(p, 1, &r->name);
    add_numbers(&p->part[MORPH_FRAMES], &r->frame, 1);
    add_numbers(&p->part[WEIGHTS], &r->weight, 1);
}

/* The parts of a take whose every section has its records so many times over. */
static inline void parts_of_times(struct parts *p, const struct take *t, size_t times)
{
    size_t n, i;
    int s;
    no_parts(p);
    for (n = 0; n < times; n++) {
        for (i = 0; i < t->counts[0]; i++)
            add_bone(p, &t->bones[i]);
        for (i = 0; i < t->counts[1]; i++)
            add_morph(p, &t->morphs[i]);
        for (s = 2; s < SECTIONS; s++)
            put_records(&p->part[CAMERAS + s - 2], t, s, CANONICAL);
    }
}

static inline void parts_of(struct parts *p, const struct take *t)
{
    parts_of_times(p, t, 1);
}

static inline void lengths_of(const struct parts *p, size_t n[BUFFERS])
{
    size_t k;
    for (k = 0; k < BUFFERS; k++)
        n[k] = p->part[k].len / buffers[k].size;
}

/* ---- one call: the answer, the four numbers, every byte of every buffer, and the file */

/* Each buffer has its part at the front, and no other byte of it was written. */
static inline void expect_parts(const struct parts *expected)
{
    size_t k;
    for (k = 0; k < BUFFERS; k++) {
        const struct bytes *part = &expected->part[k];
        const struct fence *f = &lent_parts[k];
        expect_unwritten(buffers[k].name, f->at - 64, 64);
        expect(part->len <= f->len, "%s: accepted with %zu bytes for %zu", buffers[k].name, f->len, part->len);
        if (part->len <= f->len) {
            expect_bytes(buffers[k].name, f->at, part->at, part->len);
            expect_unwritten(buffers[k].name, f->at + part->len, f->len - part->len);
        }
    }
}

static inline void expect_sizes(const char *what, uint32_t number, const struct parts *expected)
{
    if (number == VMD_OK)
        expect_lent(what, &lent_sizes, expected->sizes, sizeof expected->sizes);
    else
        expect_lent_unwritten(what, &lent_sizes);
}

/* Buffers of these lengths. */
static inline void split_into(enum manner m, const struct bytes *file, const size_t n[BUFFERS], uint32_t number,
                              const struct parts *expected)
{
    const uint8_t *f = lend(&lent_file, file->at, file->len);
    void *p[BUFFERS];
    size_t k;
    for (k = 0; k < BUFFERS; k++)
        p[k] = lend_unwritten(&lent_parts[k], n[k] * buffers[k].size);
    expect_number("split", split_in(m, f, file->len, p, n, lend_unwritten(&lent_sizes, 32)), number);
    expect_lent("file", &lent_file, file->at, file->len);
    expect_sizes("sizes", number, expected);
    if (number == VMD_OK)
        expect_parts(expected);
    else
        for (k = 0; k < BUFFERS; k++)
            expect_lent_unwritten(buffers[k].name, &lent_parts[k]);
}

static inline void sizes_of(enum manner m, const struct bytes *file, uint32_t number, const struct parts *expected)
{
    const uint8_t *f = lend(&lent_file, file->at, file->len);
    expect_number("split_sizes", split_sizes_in(m, f, file->len, lend_unwritten(&lent_sizes, 32)), number);
    expect_lent("file", &lent_file, file->at, file->len);
    expect_sizes("split_sizes", number, expected);
}

/* ---- a file in both manners: where it is read it is to have these parts, else it is refused whatever the buffers */

/* Buffers that are just long enough, longer, and too short one at a time. */
static inline void try_split_in(enum manner m, const struct bytes *file, uint32_t reads, const struct parts *expected)
{
    size_t exact[BUFFERS], n[BUFFERS], k, l;
    uint32_t short_of = first_of(reads, VMD_PARTS_DO_NOT_FIT);
    lengths_of(expected, exact);
    sizes_of(m, file, reads, expected);
    split_into(m, file, exact, reads, expected);
    for (k = 0; k < BUFFERS; k++)
        n[k] = exact[k] + 1 + 7 * k % 5;
    split_into(m, file, n, reads, expected);
    /* tables for any names, both or one of them; then the names need no counting */
    for (k = 1; k < 4; k++) {
        memcpy(n, exact, sizeof n);
        if (k & 1)
            n[BONE_NAME_BYTES] = 15 * exact[BONE_INDICES], n[BONE_NAME_ENDS] = exact[BONE_INDICES];
        if (k & 2)
            n[MORPH_NAME_BYTES] = 15 * exact[MORPH_INDICES], n[MORPH_NAME_ENDS] = exact[MORPH_INDICES];
        split_into(m, file, n, reads, expected);
        for (l = 0; l < BUFFERS; l++)
            if (l > MORPH_NAME_ENDS && exact[l] > 0) {
                n[l] -= 1;
                split_into(m, file, n, short_of, NULL);
                n[l] += 1;
            }
    }
    for (k = 0; k < BUFFERS; k++) {
        memcpy(n, exact, sizeof n);
        n[k] += 9;
        split_into(m, file, n, reads, expected);
        if (exact[k] == 0)
            continue;
        n[k] = exact[k] - 1;
        split_into(m, file, n, short_of, NULL);
        n[k] = 0;
        split_into(m, file, n, short_of, NULL);
        for (l = 0; l < BUFFERS; l++)
            n[l] = exact[l] + 40;
        n[k] = exact[k] - 1;
        split_into(m, file, n, short_of, NULL);
    }
}

static inline void try_split(const struct bytes *file, struct reading reads, const struct parts *expected)
{
    enum manner m;
    for (m = STRICT; m < MANNERS; m++)
        try_split_in(m, file, reads.in[m], expected);
}

/* The same with a few buffers: just long enough, and not there. */
static inline void try_split_briefly(const struct bytes *file, struct reading reads, const struct parts *expected)
{
    static const size_t none[BUFFERS];
    size_t exact[BUFFERS], k;
    struct reading without = reads;
    enum manner m;
    lengths_of(expected, exact);
    for (k = 0; k < BUFFERS; k++)
        if (exact[k] > 0)
            without = then(reads, alike(VMD_PARTS_DO_NOT_FIT));
    for (m = STRICT; m < MANNERS; m++) {
        sizes_of(m, file, reads.in[m], expected);
        split_into(m, file, exact, reads.in[m], expected);
        split_into(m, file, none, without.in[m], expected);
    }
}

/* One that neither manner reads, whether the buffers are long or have no elements. */
static inline void try_split_refused(const struct bytes *file, struct reading reads)
{
    static const size_t none[BUFFERS];
    size_t n[BUFFERS], k;
    enum manner m;
    for (k = 0; k < BUFFERS; k++)
        n[k] = 1000;
    for (m = STRICT; m < MANNERS; m++) {
        sizes_of(m, file, reads.in[m], NULL);
        split_into(m, file, n, reads.in[m], NULL);
        split_into(m, file, none, reads.in[m], NULL);
    }
}

/* ---- a take of which the builder takes the parts */

/* All that the builder asks of names, floats and modes. */
static inline struct take good_take(void)
{
    static const char *const names[5] = {"center", "", "\x83\x41\xB1", "fifteen letters", "center"};
    struct take t = distinct_take(0, 10, 9, 3, 4, 6, 8);
    size_t i, j;
    t.model = named("\x8F\x89\x89\xB9");
    for (i = 0; i < t.counts[0]; i++) {
        t.bones[i].name = named(names[(i + 3) % 5]);
        make_finite(t.bones[i].floats, 7);
    }
    for (i = 0; i < t.counts[1]; i++) {
        t.morphs[i].name = named(names[7 * i % 5]);
        make_finite(&t.morphs[i].weight, 1);
    }
    for (i = 0; i < t.counts[2]; i++)
        make_finite(t.cameras[i].floats, 7);
    for (i = 0; i < t.counts[3]; i++)
        make_finite(t.lights[i].floats, 6);
    for (i = 0; i < t.counts[4]; i++) {
        t.self_shadows[i].mode = (uint8_t)(i % 3);
        make_finite(&t.self_shadows[i].distance, 1);
    }
    for (i = 0; i < t.counts[5]; i++)
        for (j = 0; j < t.properties[i].n_states; j++)
            t.properties[i].states[j].name = named(names[(i + j) % 5]);
    return t;
}

#endif
