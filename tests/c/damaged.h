/*
 * Files that the two manners tell apart, and their neighbours: counts that exceed the bytes left, bytes over, files cut and
 * sections missing. What was done to a file says how it is read, and where it is accepted what it means and what saving would
 * touch first, so that expect.h is held to it as well.
 */
#ifndef DAMAGED_H
#define DAMAGED_H

#include "expect.h"
#include "manner.h"
#include "random.h"
#include "take.h"
#include "vmd.h"

/* No place of a file: saving would leave it as it is. */
#define UNCHANGED SIZE_MAX

/* A file, how it is read, and where it is accepted what it means and the first place that saving would touch. */
struct sample {
    char name[160];
    enum edition edition;
    struct bytes file;
    struct reading reads;
    struct take means;
    size_t change;
};

typedef void (*sample_trial)(const struct sample *s);

/* ---- making them */

/* A take's file, whole. */
static inline void make_whole(struct sample *d, enum edition edition, const struct take *t, enum form form)
{
    d->edition = edition;
    encode_in(&d->file, edition, t, form);
    d->means = *t;
    d->reads = alike(VMD_OK);
    d->change = edition == OLDER ? MAGICS_DIFFER : form == RAW ? MAGIC_TOLD : UNCHANGED;
}

/* Saving would touch this place as well. */
static inline void change_at(struct sample *d, size_t place)
{
    if (place < d->change)
        d->change = place;
}

/* What was done to it is told, and it is tried. */
static inline void try_told(struct sample *d, sample_trial try, const char *what, ...)
{
    va_list values;
    size_t n;
    va_start(values, what);
    vsnprintf(d->name, sizeof d->name, what, values);
    va_end(values);
    n = strlen(d->name);
    snprintf(d->name + n, sizeof d->name - n, ", %s edition", editions[d->edition].name);
    try(d);
}

/* Where the count of a section stands. */
static inline size_t count_place(enum edition edition, const struct take *t, int section)
{
    size_t at = editions[edition].sections;
    int s;
    for (s = 0; s < section; s++)
        at += 4 + record_sizes[s] * t->counts[s];
    return at;
}

/* How many records of a section the file could have from its count on. */
static inline uint32_t records_left(const struct sample *d, int section)
{
    return (uint32_t)((d->file.len - count_place(d->edition, &d->means, section) - 4) / record_sizes[section]);
}

static inline void empty_from(struct take *t, int section)
{
    memset(t->counts + section, 0, (size_t)(SECTIONS - section) * sizeof *t->counts);
}

/* A camera, light or self-shadow count that is too large. Saving makes it 0, which some of its bytes may be already. */
static inline void oversize(struct sample *d, int section, uint32_t count)
{
    size_t at = count_place(d->edition, &d->means, section);
    set_u32(&d->file, at, count);
    empty_from(&d->means, section);
    d->reads = reading(VMD_COUNT_OVERSIZED, VMD_OK);
    while (d->file.at[at] == 0)
        at++;
    change_at(d, at);
}

static inline void put_zeros(struct bytes *b, size_t n)
{
    while (n-- > 0)
        put_byte(b, 0);
}

/* Zeros, bytes 255, what a count would be, or the file's own first bytes. */
enum over { ZEROS, ONES, A_COUNT, OWN_BYTES, OVERS };

static inline void put_over(struct sample *d, size_t n, enum over over)
{
    static const uint8_t count[4] = {1, 0, 0, 0};
    size_t i;
    change_at(d, d->file.len);
    for (i = 0; i < n; i++)
        put_byte(&d->file, over == ZEROS ? 0 : over == ONES ? 0xFF : over == A_COUNT ? count[i % 4] : d->file.at[i]);
    d->reads = reading(VMD_BYTES_OVER, VMD_OK);
}

/* One file of each answer: 0, 1, 2, 16 and 17. */
enum { GOOD, CUT, OTHER_MAGIC, OVER, OVERSIZED, ANSWERS };

static inline void make_each_answer(enum edition edition, struct sample files[ANSWERS])
{
    int k;
    for (k = 0; k < ANSWERS; k++) {
        struct take t = crowded_take(5, 3);
        make_whole(&files[k], edition, &t, RAW);
    }
    files[CUT].file.len -= 1;
    files[CUT].reads = alike(VMD_ENDS_EARLY);
    files[OTHER_MAGIC].file.at[0] = 'v';
    files[OTHER_MAGIC].reads = alike(VMD_MAGIC_DIFFERS);
    put_over(&files[OVER], 1, ZEROS);
    oversize(&files[OVERSIZED], VMD_LIGHTS, 0x01000000);
}

/* ---- a camera, light or self-shadow count that is too large */

/* No records: start,0,0,1 of the paper, a byte too few for one record, and just enough for it. */
static inline void counts_alone(enum edition edition, enum form form, sample_trial try)
{
    static struct sample d;
    static const uint32_t counts[] = {1, 2, 0x80000000, 0xFFFFFFFF};
    struct take none = empty_take();
    size_t k;
    int s;
    for (s = VMD_CAMERAS; s <= VMD_SELF_SHADOWS; s++) {
        for (k = 0; k < sizeof counts / sizeof *counts; k++) {
            make_whole(&d, edition, &none, form);
            d.file.len = count_place(edition, &none, s) + 4;
            oversize(&d, s, counts[k]);
            try_told(&d, try, "count %u in section %d, and no more bytes", (unsigned)counts[k], s);
            put_zeros(&d.file, record_sizes[s] - 1);
            try_told(&d, try, "count %u in section %d, and a byte less than a record", (unsigned)counts[k], s);
        }
        make_whole(&d, edition, &none, form);
        d.file.len = count_place(edition, &none, s);
        put_u32(&d.file, 1);
        put_zeros(&d.file, record_sizes[s]);
        d.means.counts[s] = 1; /* of zeros, as all records of this take are */
        change_at(&d, d.file.len);
        try_told(&d, try, "count 1 in section %d, and a record", s);
    }
}

/* Later sections would be lost: one record too many, and far too many, among them counts whose bytes pass 32 bits. */
static inline void counts_before_others(enum edition edition, enum form form, sample_trial try)
{
    static struct sample d;
    struct take t = crowded_take(9, 4);
    size_t k;
    int s;
    for (s = VMD_CAMERAS; s <= VMD_SELF_SHADOWS; s++)
        for (k = 0; k < 6; k++) {
            uint32_t size = (uint32_t)record_sizes[s], counts[6] = {0, 0, 0x80000000, 0xFFFFFFFF};
            make_whole(&d, edition, &t, form);
            counts[0] = records_left(&d, s) + 1;
            counts[1] = counts[0] + 1;
            counts[4] = 0xFFFFFFFF / size + 1;
            counts[5] = 0x01000000;
            oversize(&d, s, counts[k]);
            try_told(&d, try, "count %u in section %d before other sections", (unsigned)counts[k], s);
        }
}

/* After such a count the file may end anywhere: what comes later is not looked at. */
static inline void counts_before_a_cut(enum edition edition, enum form form, sample_trial try)
{
    static struct sample d;
    struct take t = distinct_take(4, 1, 1, 1, 1, 1, 2);
    size_t n, at;
    int s;
    for (s = VMD_CAMERAS; s <= VMD_SELF_SHADOWS; s++) {
        make_whole(&d, edition, &t, form);
        at = count_place(edition, &t, s);
        oversize(&d, s, 1000);
        for (n = d.file.len; n-- > at + 4;) {
            d.file.len = n;
            try_told(&d, try, "count 1000 in section %d, cut after %zu bytes", s, n);
        }
        d.reads = alike(VMD_ENDS_EARLY);
        for (; n > at; n--) {
            d.file.len = n;
            try_told(&d, try, "%zu bytes of the count in section %d", n - at, s);
        }
    }
}

/* Two of them, and bytes over as well: what is met first decides, and it is the camera count. */
static inline void counts_and_more(enum edition edition, enum form form, sample_trial try)
{
    static struct sample d;
    struct take t = crowded_take(0, 4);
    make_whole(&d, edition, &t, form);
    oversize(&d, VMD_LIGHTS, 0xFFFFFFFF);
    put_zeros(&d.file, 9);
    try_told(&d, try, "a light count that is too large, and bytes over");
    make_whole(&d, edition, &t, form);
    set_u32(&d.file, count_place(edition, &t, VMD_LIGHTS), 0xFFFFFFFF);
    set_u32(&d.file, count_place(edition, &t, VMD_PROPERTIES), 0xFFFFFFFF);
    oversize(&d, VMD_CAMERAS, 0xFFFFFFFF);
    try_told(&d, try, "camera, light and property counts that are too large");
}

/* ---- bytes over */

static inline void bytes_over(enum edition edition, enum form form, sample_trial try)
{
    static struct sample d;
    static const size_t numbers[] = {1, 2, 3, 4, 5, 8, 9, 10, 21, 30, 200, 3000};
    static const size_t frames[] = {0, 1, 2, 4, 16, 17, 33};
    enum over over;
    size_t k, l;
    int records;
    for (records = 0; records < 2; records++)
        for (k = 0; k < sizeof frames / sizeof *frames; k++)
            for (l = 0; l < sizeof numbers / sizeof *numbers; l++)
                for (over = ZEROS; over < OVERS; over++) {
                    struct take t = crowded_take(7, frames[k]);
                    if (!records)
                        memset(t.counts, 0, VMD_PROPERTIES * sizeof *t.counts);
                    make_whole(&d, edition, &t, form);
                    put_over(&d, numbers[l], over);
                    try_told(&d, try, "%zu bytes over after %zu property frames, kind %u, %s records before them",
                             numbers[l], frames[k], (unsigned)over, records ? "with" : "no");
                }
}

/* The file is whole, and its property count or an IK count is less than what is there. */
static inline void counted_too_few(enum edition edition, enum form form, sample_trial try)
{
    static struct sample d;
    struct take t = crowded_take(10, 4);
    size_t n, at = count_place(edition, &t, VMD_PROPERTIES);
    for (n = 0; n < 4; n++) {
        make_whole(&d, edition, &t, form);
        set_u32(&d.file, at, (uint32_t)n);
        d.means.counts[VMD_PROPERTIES] = n;
        d.reads = reading(VMD_BYTES_OVER, VMD_OK);
        change_at(&d, canonical_size(&d.means));
        try_told(&d, try, "a property count of %zu for 4 frames", n);
    }
    for (n = 0; n < 3; n++) { /* the last frame has three states and ends the file */
        make_whole(&d, edition, &t, form);
        set_u32(&d.file, d.file.len - 3 * 21 - 4, (uint32_t)n);
        d.means.properties[3].n_states = n;
        d.reads = reading(VMD_BYTES_OVER, VMD_OK);
        change_at(&d, canonical_size(&d.means));
        try_told(&d, try, "an IK count of %zu for 3 states in the last frame", n);
    }
}

/* ---- the file ends early, and neighbours: where 1 is met first it is the answer */

/* Bone and morph counts before, property counts after: in a file that has bytes over and an oversized count as well. */
static inline void counts_that_end_early(enum edition edition, enum form form, sample_trial try)
{
    static struct sample d;
    struct take t = crowded_take(9, 4);
    static const int sections[3] = {VMD_BONES, VMD_MORPHS, VMD_PROPERTIES};
    size_t k, l;
    for (k = 0; k < 3; k++)
        for (l = 0; l < 4; l++) {
            int s = sections[k];
            uint32_t counts[4] = {0, 0xFFFFFFFF, 0x80000000};
            make_whole(&d, edition, &t, form);
            put_zeros(&d.file, 7);
            counts[0] = records_left(&d, s) + 1;
            counts[3] = 0xFFFFFFFF / (uint32_t)record_sizes[s] + 1;
            set_u32(&d.file, count_place(edition, &t, s), counts[l]);
            d.reads = alike(VMD_ENDS_EARLY);
            try_told(&d, try, "count %u in section %d, and bytes over", (unsigned)counts[l], s);
            if (s == VMD_PROPERTIES)
                continue;
            set_u32(&d.file, count_place(edition, &t, VMD_CAMERAS), 0xFFFFFFFF);
            try_told(&d, try, "count %u in section %d, and cameras likewise", (unsigned)counts[l], s);
        }
}

/* One frame or one IK state more is counted than is there: its bytes are the bytes over, if they are enough for it. */
static inline void counted_too_many(enum edition edition, enum form form, sample_trial try)
{
    static struct sample d;
    struct take t = crowded_take(8, 4), u = crowded_take(8, 3);
    size_t n;
    for (n = 0; n <= 12; n++) {
        make_whole(&d, edition, &t, form);
        set_u32(&d.file, count_place(edition, &t, VMD_PROPERTIES), 5);
        put_zeros(&d.file, n);
        memset(&d.means.properties[4], 0, sizeof *d.means.properties);
        d.means.counts[VMD_PROPERTIES] = 5;
        d.reads = n < 9 ? alike(VMD_ENDS_EARLY) : reading(n == 9 ? VMD_OK : VMD_BYTES_OVER, VMD_OK);
        if (n > 9)
            change_at(&d, d.file.len - (n - 9));
        try_told(&d, try, "a property count of 5 for 4 frames, and %zu zeros", n);
    }
    for (n = 0; n <= 24; n++) { /* the last frame has two states and ends the file */
        make_whole(&d, edition, &u, form);
        set_u32(&d.file, d.file.len - 2 * 21 - 4, 3);
        put_zeros(&d.file, n);
        memset(&d.means.properties[2].states[2], 0, sizeof *d.means.properties[2].states);
        d.means.properties[2].n_states = 3;
        d.reads = n < 21 ? alike(VMD_ENDS_EARLY) : reading(n == 21 ? VMD_OK : VMD_BYTES_OVER, VMD_OK);
        if (n > 21)
            change_at(&d, d.file.len - (n - 21));
        try_told(&d, try, "an IK count of 3 for 2 states, and %zu zeros", n);
    }
    make_whole(&d, edition, &u, form);
    set_u32(&d.file, d.file.len - 2 * 21 - 4, 0xFFFFFFFF);
    put_zeros(&d.file, 200);
    d.reads = alike(VMD_ENDS_EARLY);
    try_told(&d, try, "an IK count of 4,294,967,295, and bytes over");
}

/* The properties cut anywhere are 1; before their count the section is missing. */
static inline void properties_cut(enum edition edition, enum form form, sample_trial try)
{
    static struct sample d;
    struct take t = distinct_take(3, 1, 1, 1, 1, 1, 4);
    size_t at;
    make_whole(&d, edition, &t, form);
    at = count_place(edition, &t, VMD_PROPERTIES);
    d.reads = alike(VMD_ENDS_EARLY);
    while (--d.file.len > at)
        try_told(&d, try, "properties cut after %zu bytes", d.file.len - at);
}

/* Both manners accept a file that ends just before a later count; one to three bytes of that count are 1. */
static inline void sections_missing(enum edition edition, enum form form, sample_trial try)
{
    static struct sample d;
    struct take takes[2];
    size_t k, n;
    int s;
    takes[0] = crowded_take(5, 4);
    takes[1] = empty_take();
    for (k = 0; k < 2; k++)
        for (s = VMD_MORPHS; s < SECTIONS; s++)
            for (n = 0; n < 4; n++) {
                make_whole(&d, edition, &takes[k], form);
                d.file.len = count_place(edition, &takes[k], s) + n;
                empty_from(&d.means, s);
                d.reads = alike(n == 0 ? VMD_OK : VMD_ENDS_EARLY);
                change_at(&d, d.file.len);
                try_told(&d, try, "the file ends %zu bytes into the count of section %d, take %zu", n, s, k);
            }
}

/* The header is looked at first, whatever comes after it. */
static inline void other_headers(enum edition edition, enum form form, sample_trial try)
{
    static struct sample d;
    struct take t = crowded_take(9, 4);
    size_t n;
    for (n = 0; n < MAGIC_TOLD; n += 5) {
        make_whole(&d, edition, &t, form);
        put_zeros(&d.file, 3);
        oversize(&d, VMD_CAMERAS, 0xFFFFFFFF);
        d.file.at[n] ^= 1;
        d.reads = alike(VMD_MAGIC_DIFFERS);
        try_told(&d, try, "byte %zu of the magic changed, a camera count that is too large and bytes over", n);
    }
    make_whole(&d, edition, &t, form);
    d.reads = alike(VMD_ENDS_EARLY);
    for (d.file.len = editions[edition].sections + 3; d.file.len > 0; d.file.len -= 1 + d.file.len / 5)
        try_told(&d, try, "%zu bytes of the header", d.file.len);
}

/* Model names that the older edition cannot hold: reading comes before 15. */
static inline void long_names(enum edition edition, enum form form, sample_trial try)
{
    static struct sample d;
    size_t n;
    int s;
    for (n = 10; n <= editions[edition].model_width; n += n == 11 ? 9 : 1) {
        struct take t = crowded_take(n, 4);
        for (s = VMD_CAMERAS; s <= VMD_SELF_SHADOWS; s++) {
            make_whole(&d, edition, &t, form);
            oversize(&d, s, 0xFFFFFFFF);
            try_told(&d, try, "a model name of %zu bytes, and a count of section %d that is too large", n, s);
        }
        make_whole(&d, edition, &t, form);
        put_over(&d, 1, ZEROS);
        try_told(&d, try, "a model name of %zu bytes, and a byte over", n);
        d.file.len -= 2;
        d.reads = alike(VMD_ENDS_EARLY);
        try_told(&d, try, "a model name of %zu bytes, and a byte missing", n);
    }
}

static inline void each_damaged(enum edition edition, enum form form, sample_trial try)
{
    counts_alone(edition, form, try);
    counts_before_others(edition, form, try);
    counts_before_a_cut(edition, form, try);
    counts_and_more(edition, form, try);
    bytes_over(edition, form, try);
    counted_too_few(edition, form, try);
    counts_that_end_early(edition, form, try);
    counted_too_many(edition, form, try);
    properties_cut(edition, form, try);
    sections_missing(edition, form, try);
    other_headers(edition, form, try);
    long_names(edition, form, try);
}

/* ---- any of them */

/* A file becomes one that only the lenient manner reads. */
static inline void damage(struct sample *s)
{
    int section = VMD_CAMERAS + (int)random_below(4);
    if (section == VMD_PROPERTIES)
        put_over(s, 1 + random_below(40), OWN_BYTES);
    else
        oversize(s, section, 0xFFFFFFFF - (uint32_t)random_below(1000));
}

/* The end, a byte or a number somewhere after the older edition's header may be anything. */
static inline void spoil(struct bytes *b)
{
    size_t at = editions[OLDER].sections + random_below(b->len - editions[OLDER].sections - 3);
    switch (random_below(4)) {
    case 0: b->len = editions[OLDER].sections + random_below(b->len - editions[OLDER].sections); break;
    case 1: put(b, b->at, random_below(30)); break;
    case 2: b->at[at] = (uint8_t)random_below(4); break;
    default: set_u32(b, at, (uint32_t)(random_below(2) ? random_below(6) : random_u64()));
    }
}

/* There was a file of each number that reading answers; tried has how many by their strict number. */
static inline void expect_each_number(const size_t tried[18])
{
    static const uint32_t numbers[] = {VMD_OK, VMD_ENDS_EARLY, VMD_MAGIC_DIFFERS, VMD_BYTES_OVER, VMD_COUNT_OVERSIZED};
    size_t k;
    trial("damaged files");
    for (k = 0; k < sizeof numbers / sizeof *numbers; k++)
        expect(tried[numbers[k]] > 0, "none is %u", (unsigned)numbers[k]);
}

#endif
