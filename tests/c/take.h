/*
 * Takes, and an encoder of them written from the layouts, so that expected bytes never come from the library.
 *
 * A struct take is what a file means; flags are the bytes that a file has. It is encoded in two forms: CANONICAL, as the
 * library has to write it, and RAW, as other programs may: bytes after a name's zero, flags of any value, anything in bytes
 * 26 to 29. And in two editions, which differ in the magic and in the model name's width.
 */
#ifndef TAKE_H
#define TAKE_H

#include <stdint.h>
#include <stdio.h>
#include <stdlib.h>
#include <string.h>

/* ---- bytes */

struct bytes {
    size_t len;
    uint8_t at[1 << 18];
};

static inline void put(struct bytes *b, const void *from, size_t n)
{
    if (n > sizeof b->at - b->len) {
        fprintf(stderr, "the test's own file is too long\n");
        exit(2);
    }
    if (n > 0)
        memcpy(b->at + b->len, from, n);
    b->len += n;
}

static inline void put_byte(struct bytes *b, unsigned value)
{
    uint8_t byte = (uint8_t)value;
    put(b, &byte, 1);
}

static inline void put_u32(struct bytes *b, uint32_t value)
{
    put_byte(b, value & 255);
    put_byte(b, value >> 8 & 255);
    put_byte(b, value >> 16 & 255);
    put_byte(b, value >> 24);
}

static inline void put_u32s(struct bytes *b, const uint32_t *values, size_t n)
{
    size_t i;
    for (i = 0; i < n; i++)
        put_u32(b, values[i]);
}

/* Over what stands there. */
static inline void set_u32(struct bytes *b, size_t at, uint32_t value)
{
    size_t len = b->len;
    b->len = at;
    put_u32(b, value);
    b->len = len;
}

static inline uint32_t u32_at(const uint8_t *at)
{
    return at[0] | (uint32_t)at[1] << 8 | (uint32_t)at[2] << 16 | (uint32_t)at[3] << 24;
}

/* ---- takes */

/* Property frames have a scratch place for each sixteen of them, so a take has room for more of them than of others. */
enum { SECTIONS = 6, MOST = 12, MOST_PROPERTIES = 72, MOST_STATES = 4 };

struct name {
    uint8_t at[20];
    size_t len;
};

struct bone {
    struct name name;
    uint32_t frame, floats[7];
    uint8_t interpolation[64];
};

struct morph {
    struct name name;
    uint32_t frame, weight;
};

struct camera {
    uint32_t frame, floats[7];
    uint8_t interpolation[24];
    uint32_t field_of_view;
    uint8_t perspective;
};

struct light {
    uint32_t frame, floats[6];
};

struct self_shadow {
    uint32_t frame;
    uint8_t mode;
    uint32_t distance;
};

struct ik_state {
    struct name name;
    uint8_t enabled;
};

struct property {
    uint32_t frame;
    uint8_t visible;
    size_t n_states;
    struct ik_state states[MOST_STATES];
};

struct take {
    struct name model;
    size_t counts[SECTIONS];
    struct bone bones[MOST];
    struct morph morphs[MOST];
    struct camera cameras[MOST];
    struct light lights[MOST];
    struct self_shadow self_shadows[MOST];
    struct property properties[MOST_PROPERTIES];
};

static inline struct name named(const char *text)
{
    struct name n;
    memset(&n, 0, sizeof n);
    n.len = strlen(text);
    memcpy(n.at, text, n.len);
    return n;
}

static inline size_t states_of(const struct take *t)
{
    size_t i, n = 0;
    for (i = 0; i < t->counts[5]; i++)
        n += t->properties[i].n_states;
    return n;
}

static inline size_t canonical_size(const struct take *t)
{
    return 74 + 111 * t->counts[0] + 23 * t->counts[1] + 61 * t->counts[2] + 28 * t->counts[3] + 9 * t->counts[4]
        + 9 * t->counts[5] + 21 * states_of(t);
}

/* The frame of record i of a section. */
static inline uint32_t *frame_of(struct take *t, int section, size_t i)
{
    switch (section) {
    case 0: return &t->bones[i].frame;
    case 1: return &t->morphs[i].frame;
    case 2: return &t->cameras[i].frame;
    case 3: return &t->lights[i].frame;
    case 4: return &t->self_shadows[i].frame;
    default: return &t->properties[i].frame;
    }
}

/* Every section: the first's records, then the second's. The model name: the first's where that is not empty. */
static inline struct take joined(const struct take *first, const struct take *second)
{
    struct take t = *first;
    size_t s;
    if (first->model.len == 0)
        t.model = second->model;
    for (s = 0; s < SECTIONS; s++) {
        t.counts[s] += second->counts[s];
        if (t.counts[s] > (s == 5 ? MOST_PROPERTIES : MOST)) {
            fprintf(stderr, "the test's own take is too long\n");
            exit(2);
        }
    }
    memcpy(t.bones + first->counts[0], second->bones, second->counts[0] * sizeof *t.bones);
    memcpy(t.morphs + first->counts[1], second->morphs, second->counts[1] * sizeof *t.morphs);
    memcpy(t.cameras + first->counts[2], second->cameras, second->counts[2] * sizeof *t.cameras);
    memcpy(t.lights + first->counts[3], second->lights, second->counts[3] * sizeof *t.lights);
    memcpy(t.self_shadows + first->counts[4], second->self_shadows, second->counts[4] * sizeof *t.self_shadows);
    memcpy(t.properties + first->counts[5], second->properties, second->counts[5] * sizeof *t.properties);
    return t;
}

/* ---- the encoder */

enum form { CANONICAL, RAW };

static inline void put_name(struct bytes *b, const struct name *n, size_t width, enum form form)
{
    size_t i;
    put(b, n->at, n->len);
    for (i = n->len; i < width; i++)
        put_byte(b, form == CANONICAL || i == n->len ? 0 : 0xF0 + (i & 15));
}

static inline void put_flag(struct bytes *b, unsigned value, enum form form)
{
    put_byte(b, form == CANONICAL ? value != 0 : value);
}

enum edition { NEWER, OLDER, EDITIONS };

/* The bytes that tell the edition, the zero included; four more make the magic's field. The editions part at byte 21. */
enum { MAGIC_TOLD = 26, MAGIC_FIELD = 30, MAGICS_DIFFER = 21 };

static const struct {
    const char *name, *magic;
    size_t model_width, sections; /* where the bone count stands */
} editions[EDITIONS] = {
    {"newer", "Vocaloid Motion Data 0002", 20, 50},
    {"older", "Vocaloid Motion Data file", 10, 40},
};

/* What the older edition has less than the newer. */
enum { NARROWER = 10 };

/* The magic and the model name. */
static inline void put_header_of(struct bytes *b, enum edition edition, const struct name *model, enum form form)
{
    if (model->len > editions[edition].model_width) {
        fprintf(stderr, "the test's own model name is too long\n");
        exit(2);
    }
    put(b, editions[edition].magic, MAGIC_TOLD);
    put_u32(b, form == CANONICAL ? 0 : 0xEFBEADDE);
    put_name(b, model, editions[edition].model_width, form);
}

static inline void put_header(struct bytes *b, const struct name *model, enum form form)
{
    put_header_of(b, NEWER, model, form);
}

static inline void put_bone(struct bytes *b, const struct bone *r, enum form form)
{
    put_name(b, &r->name, 15, form);
    put_u32(b, r->frame);
    put_u32s(b, r->floats, 7);
    put(b, r->interpolation, 64);
}

static inline void put_morph(struct bytes *b, const struct morph *r, enum form form)
{
    put_name(b, &r->name, 15, form);
    put_u32(b, r->frame);
    put_u32(b, r->weight);
}

/* Perspective is on where the byte is 0: it is written as 0, and any other as 1. */
static inline void put_camera(struct bytes *b, const struct camera *r, enum form form)
{
    put_u32(b, r->frame);
    put_u32s(b, r->floats, 7);
    put(b, r->interpolation, 24);
    put_u32(b, r->field_of_view);
    put_flag(b, r->perspective, form);
}

static inline void put_light(struct bytes *b, const struct light *r)
{
    put_u32(b, r->frame);
    put_u32s(b, r->floats, 6);
}

static inline void put_self_shadow(struct bytes *b, const struct self_shadow *r)
{
    put_u32(b, r->frame);
    put_byte(b, r->mode);
    put_u32(b, r->distance);
}

static inline void put_property(struct bytes *b, const struct property *r, enum form form)
{
    size_t j;
    put_u32(b, r->frame);
    put_flag(b, r->visible, form);
    put_u32(b, (uint32_t)r->n_states);
    for (j = 0; j < r->n_states; j++) {
        put_name(b, &r->states[j].name, 20, form);
        put_flag(b, r->states[j].enabled, form);
    }
}

static inline void put_record(struct bytes *b, const struct take *t, int section, size_t i, enum form form)
{
    switch (section) {
    case 0: put_bone(b, &t->bones[i], form); break;
    case 1: put_morph(b, &t->morphs[i], form); break;
    case 2: put_camera(b, &t->cameras[i], form); break;
    case 3: put_light(b, &t->lights[i]); break;
    case 4: put_self_shadow(b, &t->self_shadows[i]); break;
    case 5: put_property(b, &t->properties[i], form); break;
    }
}

static inline void put_records(struct bytes *b, const struct take *t, int section, enum form form)
{
    size_t i;
    for (i = 0; i < t->counts[section]; i++)
        put_record(b, t, section, i, form);
}

/* The file whose every section has the take's records so many times over. */
static inline void encode_times_in(struct bytes *b, enum edition edition, const struct take *t, size_t times,
                                   enum form form)
{
    size_t n;
    int s;
    b->len = 0;
    put_header_of(b, edition, &t->model, form);
    for (s = 0; s < SECTIONS; s++) {
        put_u32(b, (uint32_t)(times * t->counts[s]));
        for (n = 0; n < times; n++)
            put_records(b, t, s, form);
    }
}

static inline void encode_times(struct bytes *b, const struct take *t, size_t times, enum form form)
{
    encode_times_in(b, NEWER, t, times, form);
}

static inline void encode_in(struct bytes *b, enum edition edition, const struct take *t, enum form form)
{
    encode_times_in(b, edition, t, 1, form);
}

static inline void encode(struct bytes *b, const struct take *t, enum form form)
{
    encode_in(b, NEWER, t, form);
}

/* What an older file has to be read as: the newer magic, its 10 name bytes and 10 zeros, and all that follows them. */
static inline void widen(struct bytes *newer, const struct bytes *older)
{
    static const uint8_t zeros[NARROWER];
    newer->len = 0;
    put(newer, editions[NEWER].magic, MAGIC_TOLD);
    put_u32(newer, 0);
    put(newer, older->at + MAGIC_FIELD, editions[OLDER].model_width);
    put(newer, zeros, NARROWER);
    put(newer, older->at + editions[OLDER].sections, older->len - editions[OLDER].sections);
}

/* ---- takes to try */

/* A byte from 1 to 255, another one each time: among 255 of them no two are equal. */
static inline unsigned next_byte(void)
{
    static unsigned n;
    n = (n + 7) % 255;
    return n + 1;
}

static inline uint32_t next_u32(void)
{
    uint32_t n = next_byte();
    n = n << 8 | next_byte();
    n = n << 8 | next_byte();
    return n << 8 | next_byte();
}

static inline struct name next_name(size_t len)
{
    struct name n;
    size_t i;
    memset(&n, 0, sizeof n);
    n.len = len;
    for (i = 0; i < len; i++)
        n.at[i] = (uint8_t)next_byte();
    return n;
}

/* A name of this length that a number has: its digits to the base 8, the last ones first or last. */
static inline struct name numbered(uint32_t number, size_t len, int first)
{
    struct name n;
    size_t k;
    memset(&n, 0, sizeof n);
    n.len = len;
    for (k = 0; k < len; k++) {
        n.at[first ? k : len - 1 - k] = (uint8_t)(number % 8 * 32 + 7);
        number /= 8;
    }
    return n;
}

static inline void next_u32s(uint32_t *to, size_t n)
{
    size_t i;
    for (i = 0; i < n; i++)
        to[i] = next_u32();
}

static inline void next_bytes(uint8_t *to, size_t n)
{
    size_t i;
    for (i = 0; i < n; i++)
        to[i] = (uint8_t)next_byte();
}

/*
 * So many records in each section, with distinct bytes everywhere in a record; name lengths go through all of their field's,
 * the flags' bytes through 0, 1, 2, 128 and 255, and the IK states of property frame i are i % 4.
 */
static inline struct take distinct_take(size_t model_len, size_t bones, size_t morphs, size_t cameras, size_t lights,
                                 size_t self_shadows, size_t properties)
{
    static const uint8_t flags[5] = {0, 1, 2, 128, 255};
    static unsigned turn;
    struct take t;
    size_t i, j;
    memset(&t, 0, sizeof t);
    t.model = next_name(model_len);
    t.counts[0] = bones;
    t.counts[1] = morphs;
    t.counts[2] = cameras;
    t.counts[3] = lights;
    t.counts[4] = self_shadows;
    t.counts[5] = properties;
    for (i = 0; i < bones; i++) {
        t.bones[i].name = next_name(turn++ % 16);
        t.bones[i].frame = next_u32();
        next_u32s(t.bones[i].floats, 7);
        next_bytes(t.bones[i].interpolation, 64);
    }
    for (i = 0; i < morphs; i++) {
        t.morphs[i].name = next_name(turn++ % 16);
        t.morphs[i].frame = next_u32();
        t.morphs[i].weight = next_u32();
    }
    for (i = 0; i < cameras; i++) {
        t.cameras[i].frame = next_u32();
        next_u32s(t.cameras[i].floats, 7);
        next_bytes(t.cameras[i].interpolation, 24);
        t.cameras[i].field_of_view = next_u32();
        t.cameras[i].perspective = flags[turn++ % 5];
    }
    for (i = 0; i < lights; i++) {
        t.lights[i].frame = next_u32();
        next_u32s(t.lights[i].floats, 6);
    }
    for (i = 0; i < self_shadows; i++) {
        t.self_shadows[i].frame = next_u32();
        t.self_shadows[i].mode = (uint8_t)next_byte();
        t.self_shadows[i].distance = next_u32();
    }
    for (i = 0; i < properties; i++) {
        t.properties[i].frame = next_u32();
        t.properties[i].visible = flags[turn++ % 5];
        t.properties[i].n_states = i % 4;
        for (j = 0; j < t.properties[i].n_states; j++) {
            t.properties[i].states[j].name = next_name(turn % 21);
            t.properties[i].states[j].enabled = flags[turn++ % 5];
        }
    }
    return t;
}

static inline struct take empty_take(void)
{
    return distinct_take(0, 0, 0, 0, 0, 0, 0);
}

/* So many records in one section, and none in the others. */
static inline struct take one_section_take(int section, size_t n)
{
    return distinct_take(1, n * (section == 0), n * (section == 1), n * (section == 2), n * (section == 3),
                         n * (section == 4), n * (section == 5));
}

/* A leg whose inverse kinematics goes off and on again: three property frames with different numbers of IK states. */
static inline struct take leg_take(void)
{
    static const char *const names[3] = {"\x8D\xB6\x91\xAB\x82\x68\x82\x6A", "\x89\x45\x91\xAB\x82\x68\x82\x6A", "toe"};
    static const uint32_t frames[3] = {0, 90, 120};
    static const size_t states[3] = {2, 3, 1};
    static const uint8_t enabled[3][3] = {{1, 1}, {0, 1, 0}, {1}};
    struct take t = empty_take();
    size_t i, j;
    t.model = named("dancer");
    t.counts[5] = 3;
    for (i = 0; i < 3; i++) {
        t.properties[i].frame = frames[i];
        t.properties[i].visible = i != 1;
        t.properties[i].n_states = states[i];
        for (j = 0; j < states[i]; j++) {
            t.properties[i].states[j].name = named(names[j]);
            t.properties[i].states[j].enabled = enabled[i][j];
        }
    }
    return t;
}

/* Few names and two frames, the larger one first: tidying drops records of each section, and puts others before others. */
static inline struct take crowded_take(size_t model_len, size_t properties)
{
    struct take t = distinct_take(model_len, 4, 4, 3, 3, 3, properties);
    size_t i;
    int s;
    for (s = 0; s < SECTIONS; s++)
        for (i = 0; i < t.counts[s]; i++)
            *frame_of(&t, s, i) = 7 - (uint32_t)(i % 2);
    for (i = 0; i < 4; i++)
        t.bones[i].name = t.morphs[i].name = named(i == 1 ? "b" : "a");
    return t;
}

/* Both zeros, infinities, NaNs quiet and signalling with payloads, the least and the largest. */
static const uint32_t odd_floats[] = {
    0x00000000, 0x80000000, 0x7F800000, 0xFF800000, 0x7FC00000, 0xFFC00001, 0x7F800001, 0xFFBFFFFF, 0x7FFFFFFF, 0x00000001,
    0x7F7FFFFF
};
enum { ODD = sizeof odd_floats / sizeof *odd_floats };

/* Every float of every record is an odd one: from this one on, another each time. */
static inline struct take odd_floats_take(size_t from)
{
    struct take t = distinct_take(1, 3, 3, 3, 3, 3, 1);
    size_t i, k;
    for (i = 0; i < 3; i++) {
        for (k = 0; k < 7; k++) {
            t.bones[i].floats[k] = odd_floats[from++ % ODD];
            t.cameras[i].floats[k] = odd_floats[from++ % ODD];
        }
        for (k = 0; k < 6; k++)
            t.lights[i].floats[k] = odd_floats[from++ % ODD];
        t.morphs[i].weight = odd_floats[from++ % ODD];
        t.self_shadows[i].distance = odd_floats[from++ % ODD];
    }
    return t;
}

/* Floats with the same bits but one, and finite. */
static inline void make_finite(uint32_t *floats, size_t n)
{
    size_t k;
    for (k = 0; k < n; k++)
        floats[k] &= ~(uint32_t)0x00800000;
}

#endif
