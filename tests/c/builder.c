/*
 * Building from parts, and the test of a name's bytes, through the C interface.
 *
 * Each refusal is tried alone, and with each refusal that the paper puts after it: the earlier one is the answer. Not tried:
 * 11, which needs 4,294,967,296 records of a kind; the smallest such section has 36 GiB.
 */
#include "check.h"
#include "manner.h"
#include "open.h"
#include "parts.h"
#include "readback.h"
#include "vmd.h"

/* ---- parts in a form that is easy to change */

enum { MOST_NAMES = 4, N_BONES = 4, N_MORPHS = 3, N_CAMERAS = 2, N_LIGHTS = 2, N_SELF_SHADOWS = 3, N_STATES = 3 };

struct part_name {
    size_t len;
    uint8_t at[32];
};

enum ends { RIGHT, FALLING, PAST_THE_BYTES, BEFORE_THE_BYTES_END, NONE };

struct name_table {
    size_t n;
    struct part_name names[MOST_NAMES];
    enum ends ends;
};

struct column {
    size_t len;
    uint32_t at[40]; /* numbers, or floats by their bits */
};

struct records {
    size_t len;
    uint8_t at[512];
};

struct parts {
    struct part_name model;
    struct name_table bone_names, morph_names;
    struct records cameras, lights, self_shadows, properties, bone_interpolations;
    struct column bone_indices, bone_frames, bone_translations, bone_rotations, morph_indices, morph_frames, morph_weights;
    size_t output_short_by;
};

static struct part_name part_name(const char *text)
{
    struct part_name n;
    memset(&n, 0, sizeof n);
    n.len = strlen(text);
    memcpy(n.at, text, n.len);
    return n;
}

static void append(struct column *c, uint32_t value)
{
    c->at[c->len++] = value;
}

static void append_bytes(struct records *r, const void *from, size_t n)
{
    if (n > sizeof r->at - r->len) {
        fprintf(stderr, "the test's own parts are too long\n");
        exit(2);
    }
    memcpy(r->at + r->len, from, n);
    r->len += n;
}

/* ---- one call: the parts are lent one by one, none of them changes, and the output and the slot are looked at */

static struct fence lent_out, lent_slot;

/* A name table as it is lent: bytes and ends. */
struct laid_table {
    struct records bytes;
    struct column ends;
};

static void lay(const struct name_table *t, struct laid_table *l)
{
    size_t k;
    l->bytes.len = l->ends.len = 0;
    for (k = 0; k < t->n; k++) {
        append_bytes(&l->bytes, t->names[k].at, t->names[k].len);
        append(&l->ends, (uint32_t)l->bytes.len);
    }
    switch (t->ends) {
    case RIGHT: break;
    case FALLING: l->ends.at[0] = l->ends.at[1] + 1; break;
    case PAST_THE_BYTES: l->ends.at[t->n - 1] += 1; break;
    case BEFORE_THE_BYTES_END: l->ends.at[t->n - 1] -= 1; break;
    case NONE: l->ends.len = 0; break;
    }
}

/* The parts as they are lent; the name tables are laid out in tables. */
static void slices_of(const struct parts *parts, struct laid_table tables[2], struct slice s[SLICES])
{
    lay(&parts->bone_names, &tables[0]);
    lay(&parts->morph_names, &tables[1]);
#define SLICE(k, from, element) s[k].at = (from).at, s[k].len = (from).len, s[k].size = element
    SLICE(0, parts->model, 1);
    SLICE(1, tables[0].bytes, 1);
    SLICE(2, tables[0].ends, 4);
    SLICE(3, tables[1].bytes, 1);
    SLICE(4, tables[1].ends, 4);
    SLICE(5, parts->cameras, 1);
    SLICE(6, parts->lights, 1);
    SLICE(7, parts->self_shadows, 1);
    SLICE(8, parts->properties, 1);
    SLICE(9, parts->bone_indices, 4);
    SLICE(10, parts->bone_frames, 4);
    SLICE(11, parts->bone_translations, 4);
    SLICE(12, parts->bone_rotations, 4);
    SLICE(13, parts->bone_interpolations, 1);
    SLICE(14, parts->morph_indices, 4);
    SLICE(15, parts->morph_frames, 4);
    SLICE(16, parts->morph_weights, 4);
#undef SLICE
}

/* Builds, or only asks for the size. */
static uint32_t call(const struct parts *parts, uint8_t *out, size_t out_len, int size_only, uint64_t *slot)
{
    struct laid_table tables[2];
    struct slice s[SLICES];
    slices_of(parts, tables, s);
    return build_with(s, out, out_len, size_only, slot);
}

static void size_of(const struct parts *parts, uint32_t number, uint64_t size)
{
    expect_number("build_size", call(parts, NULL, 0, 1, lend_unwritten(&lent_slot, 8)), number);
    if (number == VMD_OK)
        expect_lent("build_size", &lent_slot, &size, sizeof size);
    else
        expect_lent_unwritten("build_size", &lent_slot);
}

static void build_refused(const struct parts *parts, uint32_t number, size_t out_len)
{
    uint8_t *out = lend_unwritten(&lent_out, out_len);
    expect_number("build", call(parts, out, out_len, 0, lend_unwritten(&lent_slot, 8)), number);
    expect_lent_unwritten("output", &lent_out);
    expect_lent_unwritten("written", &lent_slot);
}

/* The output has just this file at its front, and no other byte of it was written. */
static void expect_built(uint32_t number, const struct bytes *expected)
{
    uint64_t len = expected->len;
    expect_number("build", number, VMD_OK);
    expect_lent("written", &lent_slot, &len, sizeof len);
    expect_bytes("output", lent_out.at, expected->at, expected->len);
    expect_unwritten("before the output", lent_out.at - 64, 64);
    expect_unwritten("after the file", lent_out.at + expected->len, lent_out.len - expected->len);
}

static void build_into(const struct parts *parts, const struct bytes *expected, size_t out_len)
{
    uint8_t *out = lend_unwritten(&lent_out, out_len);
    expect_built(call(parts, out, out_len, 0, lend_unwritten(&lent_slot, 8)), expected);
}

/* Parts that are to be built as these bytes. */
static void try_built(const struct parts *parts, const struct bytes *expected)
{
    size_of(parts, VMD_OK, expected->len);
    build_into(parts, expected, expected->len);
    build_into(parts, expected, expected->len + 100);
    build_refused(parts, VMD_OUTPUT_TOO_SHORT, expected->len - 1);
    build_refused(parts, VMD_OUTPUT_TOO_SHORT, 0);
    expect_written(expected->at, expected->len);
}

/* ---- a good set of parts, and the take that it means */

/* Good names: single bytes of every kind, pairs, a full field, and one that no record has. */
static const char *const bone_names[MOST_NAMES] = {
    "center", "\x83\x41\xB1", "\x80\xA1\xDF\x9F\xFC\xE0\x40 is full", "unused"
};
static const char *const morph_names[3] = {"", "smile", "\xFC\x4B\x81\x80"};
static const uint32_t bone_indices[N_BONES] = {1, 0, 2, 0}, morph_indices[N_MORPHS] = {2, 0, 1};

static struct take good_take(void)
{
    struct take t = distinct_take(0, N_BONES, N_MORPHS, N_CAMERAS, N_LIGHTS, N_SELF_SHADOWS, 3);
    size_t i;
    t.model = named("\x8F\x89\x89\xB9 model of 20 by");
    for (i = 0; i < N_BONES; i++) {
        t.bones[i].name = named(bone_names[bone_indices[i]]);
        make_finite(t.bones[i].floats, 7);
    }
    for (i = 0; i < N_MORPHS; i++) {
        t.morphs[i].name = named(morph_names[morph_indices[i]]);
        make_finite(&t.morphs[i].weight, 1);
    }
    for (i = 0; i < N_CAMERAS; i++) {
        t.cameras[i].perspective = (uint8_t)(2 * i);
        make_finite(t.cameras[i].floats, 7);
    }
    for (i = 0; i < N_LIGHTS; i++)
        make_finite(t.lights[i].floats, 6);
    for (i = 0; i < N_SELF_SHADOWS; i++) {
        t.self_shadows[i].mode = (uint8_t)i;
        make_finite(&t.self_shadows[i].distance, 1);
    }
    for (i = 0; i < 3; i++)
        t.properties[i].visible = (uint8_t)(128 * i);
    t.properties[0].n_states = 2;
    t.properties[0].states[0].name = named("\x8D\xB6\x91\xAB\x82\x68\x82\x6A");
    t.properties[0].states[0].enabled = 0;
    t.properties[0].states[1].name = named("20 bytes: no zero end");
    t.properties[0].states[1].name.len = 20;
    t.properties[0].states[1].enabled = 255;
    t.properties[1].n_states = 0;
    t.properties[2].n_states = 1;
    t.properties[2].states[0].name = named("");
    t.properties[2].states[0].enabled = 1;
    return t;
}

static struct records section(const struct take *t, int section)
{
    struct records r;
    struct bytes b;
    r.len = b.len = 0;
    put_records(&b, t, section, RAW);
    append_bytes(&r, b.at, b.len);
    return r;
}

static struct parts parts_of(const struct take *t)
{
    struct parts p;
    size_t i, k;
    memset(&p, 0, sizeof p);
    p.model.len = t->model.len;
    memcpy(p.model.at, t->model.at, t->model.len);
    p.bone_names.n = MOST_NAMES;
    for (k = 0; k < MOST_NAMES; k++)
        p.bone_names.names[k] = part_name(bone_names[k]);
    p.morph_names.n = 3;
    for (k = 0; k < 3; k++)
        p.morph_names.names[k] = part_name(morph_names[k]);
    p.cameras = section(t, 2);
    p.lights = section(t, 3);
    p.self_shadows = section(t, 4);
    p.properties = section(t, 5);
    for (i = 0; i < N_BONES; i++) {
        append(&p.bone_indices, bone_indices[i]);
        append(&p.bone_frames, t->bones[i].frame);
        for (k = 0; k < 3; k++)
            append(&p.bone_translations, t->bones[i].floats[k]);
        for (k = 3; k < 7; k++)
            append(&p.bone_rotations, t->bones[i].floats[k]);
        append_bytes(&p.bone_interpolations, t->bones[i].interpolation, 64);
    }
    for (i = 0; i < N_MORPHS; i++) {
        append(&p.morph_indices, morph_indices[i]);
        append(&p.morph_frames, t->morphs[i].frame);
        append(&p.morph_weights, t->morphs[i].weight);
    }
    return p;
}

/* ---- what is built */

static struct parts no_parts(void)
{
    struct parts p;
    memset(&p, 0, sizeof p);
    return p;
}

static void built_from_nothing(void)
{
    struct parts p = no_parts();
    struct take t = empty_take();
    struct bytes expected;
    encode(&expected, &t, CANONICAL);
    trial("no parts at all");
    expect_number("the test's own size", expected.len, 74);
    try_built(&p, &expected);
    trial("three empty names and no records");
    p.bone_names.n = p.morph_names.n = 3;
    try_built(&p, &expected);
}

static void built_and_read_back(void)
{
    struct take t = good_take();
    struct parts p = parts_of(&t);
    struct bytes expected, exported;
    enum manner m;
    encode(&expected, &t, CANONICAL);
    trial("a good set of parts");
    expect_number("the test's own size", expected.len, canonical_size(&t));
    try_built(&p, &expected);
    build_into(&p, &expected, expected.len);
    field_by_field(&t, lent_out.at, lent_out.len);
    for (m = STRICT; m < MANNERS; m++) {
        uint64_t len = 0;
        expect_number("export", export_in(m, lent_out.at, lent_out.len, exported.at, sizeof exported.at, &len), VMD_OK);
        expect_number("export's length", len, expected.len);
        expect_bytes("export", exported.at, expected.at, expected.len);
    }
}

/* Values at the edge of what is turned down. */
static void built_at_the_edges(void)
{
    static const uint32_t finite[] = {0, 0x80000000, 1, 0x80000001, 0x7F7FFFFF, 0xFF7FFFFF, 0x00800000};
    struct bytes expected;
    size_t n, i, k;
    for (n = 0; n < sizeof finite / sizeof *finite; n++) {
        struct take t = good_take();
        struct parts p;
        for (i = 0; i < N_BONES; i++)
            for (k = 0; k < 7; k++)
                t.bones[i].floats[k] = finite[n];
        for (i = 0; i < N_CAMERAS; i++)
            for (k = 0; k < 7; k++)
                t.cameras[i].floats[k] = finite[n];
        for (i = 0; i < N_LIGHTS; i++)
            for (k = 0; k < 6; k++)
                t.lights[i].floats[k] = finite[n];
        for (i = 0; i < N_MORPHS; i++)
            t.morphs[i].weight = finite[n];
        for (i = 0; i < N_SELF_SHADOWS; i++)
            t.self_shadows[i].distance = finite[n];
        p = parts_of(&t);
        encode(&expected, &t, CANONICAL);
        trial("all floats 0x%08X", finite[n]);
        try_built(&p, &expected);
    }
}

/* What is no float, name or mode may be anything: bytes that would be NaNs beside the floats. */
static void built_with_any_other_bytes(void)
{
    struct take t = good_take();
    struct parts p;
    struct bytes expected;
    size_t i;
    for (i = 0; i < N_BONES; i++) {
        t.bones[i].frame = 0xFFFFFFFF;
        memset(t.bones[i].interpolation, 0xFF, 64);
    }
    for (i = 0; i < N_MORPHS; i++)
        t.morphs[i].frame = 0xFFFFFFFF;
    for (i = 0; i < N_CAMERAS; i++) {
        t.cameras[i].frame = t.cameras[i].field_of_view = 0xFFFFFFFF;
        t.cameras[i].perspective = 0xFF;
        memset(t.cameras[i].interpolation, 0xFF, 24);
    }
    for (i = 0; i < N_LIGHTS; i++)
        t.lights[i].frame = 0xFFFFFFFF;
    for (i = 0; i < N_SELF_SHADOWS; i++)
        t.self_shadows[i].frame = 0xFFFFFFFF;
    for (i = 0; i < 3; i++)
        t.properties[i].frame = 0xFFFFFFFF;
    p = parts_of(&t);
    encode(&expected, &t, CANONICAL);
    trial("0xFF wherever anything may stand");
    try_built(&p, &expected);
}

/* Property frames of different numbers of IK states, the last with none among them. */
static void built_with_states(void)
{
    static const size_t states[][4] = {{0}, {1}, {0, 0}, {2, 0}, {0, 3}, {0, 1, 2, 0}, {4, 4, 4, 4}};
    static const size_t frames[] = {1, 1, 2, 2, 2, 4, 4};
    size_t k, i, j;
    for (k = 0; k < sizeof frames / sizeof *frames; k++) {
        struct take t = empty_take();
        struct parts p = no_parts();
        struct bytes expected;
        t.counts[5] = frames[k];
        for (i = 0; i < frames[k]; i++) {
            t.properties[i].frame = (uint32_t)i;
            t.properties[i].n_states = states[k][i];
            for (j = 0; j < states[k][i]; j++)
                t.properties[i].states[j].name = named("leg");
        }
        p.properties = section(&t, 5);
        encode(&expected, &t, CANONICAL);
        trial("property frames, row %zu", k);
        try_built(&p, &expected);
    }
}

/* More records of each kind than one byte can count: the columns and the records of a good set, so many times over. */
static void built_from_many(void)
{
    enum { TIMES = 150, FIRST_REPEATED = 5 };
    static uint8_t many[SLICES][TIMES * 512];
    static struct bytes expected;
    struct take t = good_take();
    struct parts p = parts_of(&t);
    struct laid_table tables[2];
    struct slice s[SLICES];
    size_t k, n;
    uint8_t *out;
    slices_of(&p, tables, s);
    for (k = FIRST_REPEATED; k < SLICES; k++) {
        for (n = 0; n < TIMES; n++)
            memcpy(many[k] + n * s[k].len * s[k].size, s[k].at, s[k].len * s[k].size);
        s[k].at = many[k];
        s[k].len *= TIMES;
    }
    encode_times(&expected, &t, TIMES, CANONICAL);
    trial("a good set of parts, %d times over", TIMES);
    out = lend_unwritten(&lent_out, expected.len);
    expect_built(build_with(s, out, expected.len, 0, lend_unwritten(&lent_slot, 8)), &expected);
    expect_written(lent_out.at, lent_out.len);
    out = lend_unwritten(&lent_out, expected.len - 1);
    expect_number("build", build_with(s, out, expected.len - 1, 0, lend_unwritten(&lent_slot, 8)), VMD_OUTPUT_TOO_SHORT);
    expect_lent_unwritten("output", &lent_out);
}

/* ---- faults, in the paper's order; each changes one thing in a good set of parts */

struct fault {
    char name[80];
    uint32_t number;
    int thing; /* two faults of the same thing are not tried together */
    void (*apply)(struct parts *p, int which, int part, uint32_t value);
    int which, part;
    uint32_t value;
};

enum { MOST_FAULTS = 600 };

static struct fault faults[MOST_FAULTS];
static size_t n_faults;
static int things;

static void fault(uint32_t number, int thing, void (*apply)(struct parts *, int, int, uint32_t), int which, int part,
                  uint32_t value, const char *name, ...)
{
    struct fault *f = &faults[n_faults++];
    va_list values;
    if (n_faults > MOST_FAULTS) {
        fprintf(stderr, "too many faults for the test's table\n");
        exit(2);
    }
    va_start(values, name);
    vsnprintf(f->name, sizeof f->name, name, values);
    va_end(values);
    f->number = number;
    f->thing = thing;
    f->apply = apply;
    f->which = which;
    f->part = part;
    f->value = value;
}

enum { MODEL, BONE_NAMES, MORPH_NAMES };

static struct name_table *table(struct parts *p, int which)
{
    return which == BONE_NAMES ? &p->bone_names : &p->morph_names;
}

static struct part_name *name(struct parts *p, int which, int k)
{
    return which == MODEL ? &p->model : &table(p, which)->names[k];
}

static struct records *records(struct parts *p, int section)
{
    struct records *of[] = {&p->cameras, &p->lights, &p->self_shadows, &p->properties};
    return of[section - VMD_CAMERAS];
}

static void store(uint8_t *at, uint32_t value)
{
    at[0] = (uint8_t)value;
    at[1] = (uint8_t)(value >> 8);
    at[2] = (uint8_t)(value >> 16);
    at[3] = (uint8_t)(value >> 24);
}

static void ends_wrong(struct parts *p, int which, int part, uint32_t how)
{
    (void)part;
    table(p, which)->ends = (enum ends)how;
}

/* So many bytes more, or one less. */
static void bytes_over(struct parts *p, int section, int bytes, uint32_t value)
{
    struct records *r = records(p, section);
    (void)value;
    if (bytes < 0)
        r->len -= 1;
    else
        memset(r->at + r->len, 0, (size_t)bytes), r->len += (size_t)bytes;
}

/* The number of IK states of a property frame, in place of the right one. */
static void states_wrong(struct parts *p, int which, int place, uint32_t value)
{
    (void)which;
    store(p->properties.at + place + 5, value);
}

static void name_too_long(struct parts *p, int which, int k, uint32_t width)
{
    struct part_name *n = name(p, which, k);
    while (n->len <= width)
        n->at[n->len++] = 'A';
}

/* The fault's byte is the second, so that it can stand beside one in the first. */
static void name_with_zero(struct parts *p, int which, int k, uint32_t value)
{
    struct part_name *n = name(p, which, k);
    (void)value;
    while (n->len < 2)
        n->at[n->len++] = 'A';
    n->at[1] = 0;
}

static void name_not_good(struct parts *p, int which, int k, uint32_t byte)
{
    struct part_name *n = name(p, which, k);
    if (n->len < 1)
        n->len = 1;
    n->at[0] = (uint8_t)byte;
}

/* A lead byte with nothing after it. */
static void name_ends_in_lead(struct parts *p, int which, int k, uint32_t byte)
{
    struct part_name *n = name(p, which, k);
    if (n->len < 1)
        n->len = 1;
    n->at[n->len - 1] = (uint8_t)byte;
    if (n->len > 1)
        n->at[n->len - 2] = 'A'; /* no lead that it could be the trail of */
}

/* A pair without a character. */
static void name_with_bare_pair(struct parts *p, int which, int k, uint32_t value)
{
    struct part_name *n = name(p, which, k);
    (void)value;
    if (n->len < 2)
        n->len = 2;
    memcpy(n->at, "\x85\x40", 2);
}

static void ik_name_with_bare_pair(struct parts *p, int which, int place, uint32_t value)
{
    (void)which;
    (void)value;
    memcpy(p->properties.at + place, "\x85\x40", 2);
}

static void record_word(struct parts *p, int section, int place, uint32_t value)
{
    store(records(p, section)->at + place, value);
}

static void record_byte(struct parts *p, int section, int place, uint32_t value)
{
    records(p, section)->at[place] = (uint8_t)value;
}

static struct column *column(struct parts *p, int which)
{
    struct column *of[] = {&p->bone_indices,  &p->bone_frames,  &p->bone_translations, &p->bone_rotations,
                           &p->morph_indices, &p->morph_frames, &p->morph_weights};
    return of[which];
}

static void column_longer(struct parts *p, int which, int by, uint32_t value)
{
    struct column *c = column(p, which);
    (void)value;
    for (; by > 0; by--)
        append(c, 0);
    for (; by < 0; by++)
        c->len -= 1;
}

static void interpolations_longer(struct parts *p, int which, int by, uint32_t value)
{
    (void)which;
    (void)value;
    p->bone_interpolations.len += (size_t)by;
}

static void column_value(struct parts *p, int which, int place, uint32_t value)
{
    column(p, which)->at[place] = value;
}

static void output_short(struct parts *p, int which, int part, uint32_t by)
{
    (void)which;
    (void)part;
    p->output_short_by = by;
}

static const uint32_t not_finite[] = {0x7FC00000, 0x7F800001, 0x7F800000, 0xFF800000};
enum { KINDS = sizeof not_finite / sizeof *not_finite };

static void faults_of_names(int which, int k, uint32_t width, const char *what)
{
    fault(6, ++things, name_too_long, which, k, width, "%s %d too long", what, k);
    fault(6, ++things, name_with_zero, which, k, 0, "%s %d with a zero byte", what, k);
    fault(7, ++things, name_not_good, which, k, 0xA0, "%s %d not good", what, k);
    fault(7, ++things, name_ends_in_lead, which, k, 0x83, "%s %d ends in a lead byte", what, k);
    fault(7, ++things, name_with_bare_pair, which, k, 0, "%s %d with a pair without a character", what, k);
}

/* Every float of every record of a section. */
static void faults_of_records(int section, int n, int size, int first, int floats, const char *what)
{
    int i, k, v;
    for (i = 0; i < n; i++)
        for (k = 0; k < floats; k++) {
            ++things;
            for (v = 0; v < KINDS; v++)
                fault(8, things, record_word, section, i * size + first + 4 * k, not_finite[v],
                      "%s %d, float %d is 0x%08X", what, i, k, not_finite[v]);
        }
}

static void faults_of_self_shadows(void)
{
    int i, v;
    for (i = 0; i < N_SELF_SHADOWS; i++) {
        ++things;
        for (v = 0; v < KINDS; v++)
            fault(9, things, record_word, VMD_SELF_SHADOWS, 9 * i + 5, not_finite[v],
                  "self-shadow %d, distance is 0x%08X", i, not_finite[v]);
        ++things;
        fault(9, things, record_byte, VMD_SELF_SHADOWS, 9 * i + 4, 3, "self-shadow %d, mode 3", i);
        fault(9, things, record_byte, VMD_SELF_SHADOWS, 9 * i + 4, 255, "self-shadow %d, mode 255", i);
    }
}

static void faults_of_columns(void)
{
    static const char *const names[] = {"bone indices",  "bone frames",  "bone translations", "bone rotations",
                                        "morph indices", "morph frames", "morph weights"};
    static const int widths[] = {1, 1, 3, 4, 1, 1, 1};
    int c;
    for (c = 0; c < 7; c++) {
        ++things;
        fault(10, things, column_longer, c, widths[c], 0, "%s of one record more", names[c]);
        fault(10, things, column_longer, c, -widths[c], 0, "%s of one record less", names[c]);
        if (widths[c] > 1) {
            fault(10, things, column_longer, c, 1, 0, "%s with a value more", names[c]);
            fault(10, things, column_longer, c, -1, 0, "%s with a value less", names[c]);
        }
    }
    ++things;
    fault(10, things, interpolations_longer, 0, 64, 0, "bone interpolations of one record more");
    fault(10, things, interpolations_longer, 0, -64, 0, "bone interpolations of one record less");
    fault(10, things, interpolations_longer, 0, 1, 0, "bone interpolations with a byte more");
    fault(10, things, interpolations_longer, 0, -1, 0, "bone interpolations with a byte less");
}

static void faults_of_index(int c, int i, uint32_t n, const char *what)
{
    ++things;
    fault(12, things, column_value, c, i, n, "%s %d, name index %u", what, i, n);
    fault(12, things, column_value, c, i, 0xFFFFFFFF, "%s %d, name index 4294967295", what, i);
}

static void faults_of_values(int c, int i, int width, const char *what)
{
    int k, v;
    for (k = 0; k < width; k++) {
        ++things;
        for (v = 0; v < KINDS; v++)
            fault(8, things, column_value, c, width * i + k, not_finite[v], "%s %d, value %d is 0x%08X", what, i, k,
                  not_finite[v]);
    }
}

static void make_faults(void)
{
    static const char *const tables[] = {"", "bone names", "morph names"};
    static const char *const sections[] = {"", "", "cameras", "lights", "self-shadows", "properties"};
    static const int frames[3] = {0, 51, 60}; /* where the property frames begin: 9 + 2 * 21, 9, 9 + 21 bytes */
    static const int states[N_STATES] = {9, 30, 69};
    int i, s;
    for (i = BONE_NAMES; i <= MORPH_NAMES; i++) {
        ++things;
        fault(5, things, ends_wrong, i, 0, FALLING, "%s whose ends fall", tables[i]);
        fault(5, things, ends_wrong, i, 0, PAST_THE_BYTES, "%s with an end past the bytes", tables[i]);
        fault(5, things, ends_wrong, i, 0, BEFORE_THE_BYTES_END, "%s with a byte after the last end", tables[i]);
        fault(5, things, ends_wrong, i, 0, NONE, "%s: bytes and no ends", tables[i]);
    }
    for (s = VMD_CAMERAS; s <= VMD_PROPERTIES; s++) {
        ++things;
        fault(5, things, bytes_over, s, 1, 0, "%s with a byte more", sections[s]);
        fault(5, things, bytes_over, s, 8, 0, "%s with eight bytes more", sections[s]);
        fault(5, things, bytes_over, s, -1, 0, "%s with a byte less", sections[s]);
    }
    for (i = 0; i < 3; i++) {
        ++things;
        fault(5, things, states_wrong, 0, frames[i], 0xFFFFFFFF, "property %d with 4294967295 IK states", i);
        fault(5, things, states_wrong, 0, frames[i], 4, "property %d with four IK states", i);
    }
    fault(5, things, states_wrong, 0, frames[2], 0, "property 2 with an IK state less");

    faults_of_names(MODEL, 0, 20, "model name");
    for (i = 0; i < MOST_NAMES; i++)
        faults_of_names(BONE_NAMES, i, 15, "bone name");
    for (i = 0; i < 3; i++)
        faults_of_names(MORPH_NAMES, i, 15, "morph name");
    faults_of_records(VMD_CAMERAS, N_CAMERAS, VMD_CAMERA_SIZE, 4, 7, "camera");
    faults_of_records(VMD_LIGHTS, N_LIGHTS, VMD_LIGHT_SIZE, 4, 6, "light");
    faults_of_self_shadows();
    for (i = 0; i < N_STATES; i++)
        fault(7, ++things, record_byte, VMD_PROPERTIES, states[i], 0xFD, "IK name %d not good", i);
    fault(7, ++things, record_byte, VMD_PROPERTIES, states[1] + 19, 0x83, "IK name 1 ends in a lead byte");
    for (i = 0; i < N_STATES; i++)
        fault(7, ++things, ik_name_with_bare_pair, 0, states[i], 0, "IK name %d with a pair without a character", i);
    faults_of_columns();
    for (i = 0; i < N_BONES; i++) {
        faults_of_index(0, i, MOST_NAMES, "bone");
        faults_of_values(2, i, 3, "translation of bone");
        faults_of_values(3, i, 4, "rotation of bone");
    }
    for (i = 0; i < N_MORPHS; i++) {
        faults_of_index(4, i, 3, "morph");
        faults_of_values(6, i, 1, "weight of morph");
    }
    fault(13, ++things, output_short, 0, 0, 1, "output one byte short");
}

static void apply(const struct fault *f, struct parts *p)
{
    f->apply(p, f->which, f->part, f->value);
}

static void expect_refused(const struct parts *p, uint32_t number, size_t size)
{
    size_of(p, number == VMD_OUTPUT_TOO_SHORT ? VMD_OK : number, size);
    build_refused(p, number, size - p->output_short_by);
}

static void each_fault_alone(void)
{
    struct take t = good_take();
    const struct parts good = parts_of(&t);
    size_t k;
    for (k = 0; k < n_faults; k++) {
        struct parts p = good;
        apply(&faults[k], &p);
        trial("%s", faults[k].name);
        expect_refused(&p, faults[k].number, canonical_size(&t));
    }
}

/* The later one is applied first: where both change the same bytes, the earlier one is surely there. */
static void each_fault_with_a_later_one(void)
{
    struct take t = good_take();
    const struct parts good = parts_of(&t);
    size_t k, l;
    for (k = 0; k < n_faults; k++)
        for (l = k + 1; l < n_faults; l++) {
            struct parts p = good;
            if (faults[k].thing == faults[l].thing)
                continue;
            apply(&faults[l], &p);
            apply(&faults[k], &p);
            trial("%s, and %s", faults[k].name, faults[l].name);
            expect_refused(&p, faults[k].number, canonical_size(&t));
        }
}

/* An index into a table of no names. */
static void index_without_names(void)
{
    struct take t = good_take();
    struct parts p = parts_of(&t);
    trial("bones without bone names");
    p.bone_names.n = 0;
    expect_refused(&p, VMD_NAME_INDEX, canonical_size(&t));
    p = parts_of(&t);
    trial("morphs without morph names");
    p.morph_names.n = 0;
    expect_refused(&p, VMD_NAME_INDEX, canonical_size(&t));
}

/* ---- the bytes of a name */

static int is_single(unsigned b)
{
    return b <= 0x80 || (b >= 0xA1 && b <= 0xDF);
}

static int is_lead(unsigned b)
{
    return (b >= 0x81 && b <= 0x9F) || (b >= 0xE0 && b <= 0xFC);
}

static int is_trail(unsigned b)
{
    return (b >= 0x40 && b <= 0x7E) || (b >= 0x80 && b <= 0xFC);
}

/*
 * The pairs that have a character, by their bytes: leads from .. to, and trails from .. to, 0x7F left out. They are those of
 * Python 3.11's codec cp932; CP932 of glibc 2.36's iconv has the same.
 */
static const struct {
    uint8_t lead, last_lead, trail, last_trail;
} characters[] = {
    {0x81, 0x81, 0x40, 0xAC}, {0x81, 0x81, 0xB8, 0xBF}, {0x81, 0x81, 0xC8, 0xCE}, {0x81, 0x81, 0xDA, 0xE8},
    {0x81, 0x81, 0xF0, 0xF7}, {0x81, 0x81, 0xFC, 0xFC}, {0x82, 0x82, 0x4F, 0x58}, {0x82, 0x82, 0x60, 0x79},
    {0x82, 0x82, 0x81, 0x9A}, {0x82, 0x82, 0x9F, 0xF1}, {0x83, 0x83, 0x40, 0x96}, {0x83, 0x83, 0x9F, 0xB6},
    {0x83, 0x83, 0xBF, 0xD6}, {0x84, 0x84, 0x40, 0x60}, {0x84, 0x84, 0x70, 0x91}, {0x84, 0x84, 0x9F, 0xBE},
    {0x87, 0x87, 0x40, 0x5D}, {0x87, 0x87, 0x5F, 0x75}, {0x87, 0x87, 0x7E, 0x9C}, {0x88, 0x88, 0x9F, 0xFC},
    {0x89, 0x97, 0x40, 0xFC}, {0x98, 0x98, 0x40, 0x72}, {0x98, 0x98, 0x9F, 0xFC}, {0x99, 0x9F, 0x40, 0xFC},
    {0xE0, 0xE9, 0x40, 0xFC}, {0xEA, 0xEA, 0x40, 0xA4}, {0xED, 0xED, 0x40, 0xFC}, {0xEE, 0xEE, 0x40, 0xEC},
    {0xEE, 0xEE, 0xEF, 0xFC}, {0xF0, 0xFB, 0x40, 0xFC}, {0xFC, 0xFC, 0x40, 0x4B},
};

static int is_pair(unsigned lead, unsigned trail)
{
    size_t k;
    if (is_lead(lead) && is_trail(trail))
        for (k = 0; k < sizeof characters / sizeof *characters; k++)
            if (lead >= characters[k].lead && lead <= characters[k].last_lead && trail >= characters[k].trail
                && trail <= characters[k].last_trail)
                return 1;
    return 0;
}

static size_t expected_fault(const uint8_t *name, size_t len)
{
    size_t i = 0;
    while (i < len) {
        if (is_single(name[i]))
            i += 1;
        else if (i + 1 < len && is_pair(name[i], name[i + 1]))
            i += 2;
        else
            break;
    }
    return i;
}

/* What the builder says of a name as the model's, and as the only one of a table (which: MODEL, BONE_NAMES, MORPH_NAMES). */
static void try_name_as(int which, const uint8_t *bytes, size_t len)
{
    struct parts p = no_parts();
    struct part_name *n = name(&p, which, 0);
    int unfit = len > (which == MODEL ? 20 : 15) || (len > 0 && memchr(bytes, 0, len) != NULL);
    if (which != MODEL)
        table(&p, which)->n = 1;
    n->len = len;
    memcpy(n->at, bytes, len);
    size_of(&p, unfit ? VMD_NAME_UNFIT : expected_fault(bytes, len) < len ? VMD_NAME_NOT_GOOD : VMD_OK, 74);
}

/* What it says of one as an IK state's, which ends before its first zero byte. */
static void try_ik_name(const uint8_t *bytes, size_t len)
{
    static const uint8_t frame[9] = {0, 0, 0, 0, 1, 1, 0, 0, 0}, zeros[21];
    struct parts p = no_parts();
    const uint8_t *zero = len > 0 ? memchr(bytes, 0, len) : NULL;
    size_t n = zero != NULL ? (size_t)(zero - bytes) : len;
    append_bytes(&p.properties, frame, 9);
    append_bytes(&p.properties, bytes, len);
    append_bytes(&p.properties, zeros, 21 - len);
    size_of(&p, expected_fault(bytes, n) < n ? VMD_NAME_NOT_GOOD : VMD_OK, 74 + 9 + 21);
}

/* The place of the first fault, and what the builder says of the name wherever it can stand. */
static void try_name(const uint8_t *bytes, size_t len)
{
    int which;
    expect_number("first_fault", vmd_first_fault(lend(&lent_out, bytes, len), len), expected_fault(bytes, len));
    expect_lent("name", &lent_out, bytes, len);
    for (which = MODEL; which <= MORPH_NAMES; which++)
        try_name_as(which, bytes, len);
    try_ik_name(bytes, len);
}

static void names_told_in_words(void)
{
    static const struct {
        const char *name;
        size_t len, place;
    } rows[] = {
        {"", 0, 0}, {"\x83\x41", 2, 2}, {"\x83", 1, 0}, {"\x83\x7F", 2, 0}, {"\xA0", 1, 0}, {"A\xA0", 2, 1},
        {"\x80", 1, 1}, {"\xFD", 1, 0}, {"\x81\x40\x81", 3, 2}, {"\x81\x81\x40", 3, 3}, {"\xDF\xE0\xFC", 3, 3},
        {"\xFC\xFD", 2, 0}, {"\x9F\x3F", 2, 0}, {"ab\x83\x41\xA0\xA0", 6, 4}, {"\xEF\xBB\xBF", 3, 0}, {"\xFE\xFF", 2, 0},
        {"123456789012345678\x83\x41", 20, 20}, {"1234567890123456789\x83", 20, 19},
    };
    size_t k;
    for (k = 0; k < sizeof rows / sizeof *rows; k++) {
        trial("name %zu", k);
        expect_number("first_fault", vmd_first_fault((const uint8_t *)rows[k].name, rows[k].len), rows[k].place);
        try_name((const uint8_t *)rows[k].name, rows[k].len);
    }
    trial("no name");
    expect_number("first_fault", vmd_first_fault(NULL, 0), 0);
}

/* A good set of parts in which one name is another, good or not: the model's, bone name 1, morph name 1 or IK name 1. */
static void name_replaced(int place, const struct name *n, int good)
{
    struct take t = good_take();
    struct parts p;
    struct bytes expected;
    size_t i;
    if (place == 0)
        t.model = *n;
    for (i = 0; i < N_BONES && place == 1; i++)
        if (bone_indices[i] == 1)
            t.bones[i].name = *n;
    for (i = 0; i < N_MORPHS && place == 2; i++)
        if (morph_indices[i] == 1)
            t.morphs[i].name = *n;
    if (place == 3)
        t.properties[0].states[1].name = *n;
    p = parts_of(&t);
    if (place == 1 || place == 2) {
        struct part_name *in_table = &(place == 1 ? &p.bone_names : &p.morph_names)->names[1];
        in_table->len = n->len;
        memcpy(in_table->at, n->at, n->len);
    }
    encode(&expected, &t, CANONICAL);
    if (good)
        try_built(&p, &expected);
    else
        expect_refused(&p, VMD_NAME_NOT_GOOD, expected.len);
}

/* Pairs at the edges of what has a character, with their pointers, in every place where a name is judged. */
static void pairs_told_in_words(void)
{
    static const char *const places[] = {"the model name", "a bone name", "a morph name", "an IK name"};
    static const struct {
        const char *name;
        size_t place;
    } rows[] = {
        {"\x83\x41", 2}, {"\x85\x40", 0}, {"\x41\x85\x40", 1}, {"\x83\x41\x85\x40", 2}, {"\x85\x40\x83\x41", 0},
        {"\x81\xAC", 2},     /* 107 */
        {"\x81\xAD", 0},     /* 108 */
        {"\x81\xB7", 0},     /* 118 */
        {"\x81\xB8", 2},     /* 119 */
        {"\x88\x9E", 0},     /* 1409 */
        {"\x88\x9F", 2},     /* 1410, the first Kanji */
        {"\x98\x72", 2},     /* 4374 */
        {"\x98\x73", 0},     /* 4375 */
        {"\xEF\xFC", 0},     /* 8835 */
        {"\xF0\x40", 2},     /* 8836, where the range begins */
        {"\xF9\xFC", 2},     /* 10715, where it ends */
        {"\xFA\x40", 2},     /* 10716, in the index again */
        {"\xFC\x4B", 2},     /* 11103, the last */
        {"\xFC\x4C", 0},     /* 11104 */
        {"\xFC\xFC", 0},     /* 11279, the last pair */
        {"\xEF\xBB\xBF", 0}, /* a byte order mark is no exception here */
    };
    size_t k;
    int place;
    for (k = 0; k < sizeof rows / sizeof *rows; k++) {
        struct name n = named(rows[k].name);
        trial("pair %zu", k);
        expect_number("first_fault", vmd_first_fault(n.at, n.len), rows[k].place);
        try_name(n.at, n.len);
        for (place = 0; place < 4; place++) {
            trial("pair %zu in %s", k, places[place]);
            name_replaced(place, &n, rows[k].place == n.len);
        }
    }
}

/* Every byte, and every two, alone and after others that shift what is a lead. */
static void names_of_all_bytes(void)
{
    static const char *const before[] = {"", "A", "\x83\x41", "\x83"};
    uint8_t n[4];
    unsigned a, b, k, with = 0;
    for (a = 0; a < 256; a++)
        for (b = 0; b < 256; b++)
            with += (unsigned)is_pair(a, b);
    trial("the test's own pairs");
    expect_number("pairs with a character", with, 9604);
    for (a = 0; a < 256; a++) {
        n[0] = (uint8_t)a;
        trial("name of the byte 0x%02X", a);
        try_name(n, 1);
        for (b = 0; b < 256; b++)
            for (k = 0; k < 4; k++) {
                size_t at = strlen(before[k]);
                memcpy(n, before[k], at);
                n[at] = (uint8_t)a;
                n[at + 1] = (uint8_t)b;
                trial("name of the bytes 0x%02X 0x%02X after %zu others", a, b, at);
                try_name(n, at + 2);
            }
    }
}

/* ---- nothing after the first fault is read */

/*
 * The test leaves a name at its first fault: the length says that more follows than that byte and the next, which may be a
 * trail, and none of it can be read.
 */
static void rest_of_a_name_unread(void)
{
    static const struct {
        const char *bytes;
        size_t len, place;
    } rows[] = {
        {"\xA0\x40", 2, 0}, {"\xFD\xFD", 2, 0}, {"A\xFF\x40", 3, 1}, {"\x83\x7F", 2, 0}, {"\x83\x41\xA0\xA0", 4, 2},
        {"ab\x83\x41\xFC\xFD", 6, 4},
        {"12345678\x81\x81\x81\x3F", 12, 10}, {"\x85\x40", 2, 0}, {"\x83\x41\xEF\xFC", 4, 2},
    };
    size_t k;
    for (k = 0; k < sizeof rows / sizeof *rows; k++) {
        trial("bad name %zu, and bytes after it that cannot be read", k);
        expect_number("first_fault", vmd_first_fault(lend(&lent_out, rows[k].bytes, rows[k].len), rows[k].len + 65536),
                      rows[k].place);
    }
}

/*
 * The builder reads nothing after the first name that is turned down: not the names after it, not the other table's, no
 * record and no column. Lengths and all ends are looked at first, and property frames, of which there are none here.
 */
static void parts_after_a_bad_name_unread(void)
{
    enum { MODEL = 0, BONES = 1, MORPHS = 3 };
    static const struct {
        uint32_t number;
        int which; /* the names that a byte is put into */
        size_t at;
        uint8_t byte;
        size_t readable[4]; /* of the model name, the bone names and the morph names, by which */
    } rows[] = {
        {7, MODEL, 0, 0xA0, {6, 0, 0, 0}},    {6, MODEL, 5, 0x00, {6, 0, 0, 0}},    {7, BONES, 0, 0xFD, {6, 6, 0, 0}},
        {6, BONES, 3, 0x00, {6, 6, 0, 0}},    {7, BONES, 5, 0x83, {6, 6, 0, 0}},    {7, BONES, 10, 0xA0, {6, 15, 0, 0}},
        {7, BONES, 18, 0xFC, {6, 19, 0, 0}},  {7, MORPHS, 0, 0xFF, {6, 19, 0, 5}},  {6, MORPHS, 9, 0x00, {6, 19, 0, 10}},
        {7, MORPHS, 9, 0xE0, {6, 19, 0, 10}}, {7, MODEL, 0, 0x85, {6, 0, 0, 0}},    {7, BONES, 8, 0xEB, {6, 10, 0, 0}},
        {7, MORPHS, 8, 0xFC, {6, 19, 0, 10}},
    };
    static const uint32_t bone_ends[] = {6, 10, 15, 19}, morph_ends[] = {5, 10};
    size_t row;
    for (row = 0; row < sizeof rows / sizeof *rows; row++) {
        char names[4][24] = {"dancer", "centerleftrightknee", "", "smileblink"};
        struct slice s[SLICES] = {
            {names[0], 6, 1}, {names[1], 19, 1}, {bone_ends, 4, 4}, {names[3], 10, 1}, {morph_ends, 2, 4},
            {NULL, 2 * 61, 1}, {NULL, 2 * 28, 1}, {NULL, 3 * 9, 1}, {NULL, 0, 1},
            {NULL, 4, 4}, {NULL, 4, 4}, {NULL, 12, 4}, {NULL, 16, 4}, {NULL, 256, 1},
            {NULL, 3, 4}, {NULL, 3, 4}, {NULL, 3, 4},
        };
        const void *p[SLICES];
        size_t n[SLICES]; /* how many bytes of each can be read */
        uint64_t *slot = lend_unwritten(&lent_slot, 8);
        int k;
        trial("byte %zu of names %d is 0x%02X, and what is after that name cannot be read", rows[row].at, rows[row].which,
              rows[row].byte);
        names[rows[row].which][rows[row].at] = (char)rows[row].byte;
        for (k = 0; k < SLICES; k++) {
            n[k] = k == 2 || k == 4 ? s[k].len * s[k].size : k < 4 ? rows[row].readable[k] : 0;
            p[k] = n[k] > 0 ? lend(&lent[k], s[k].at, n[k]) : end_of(&lent[k]);
        }
        expect_number("build_size", vmd_build_size(PARTS, slot), rows[row].number);
        expect_number("build", vmd_build_animation_from_parts(PARTS, end_of(&lent_out), 65536, slot), rows[row].number);
        expect_lent_unwritten("slot", &lent_slot);
        for (k = 0; k < SLICES; k++)
            if (n[k] > 0)
                expect_lent("a part", &lent[k], s[k].at, n[k]);
    }
}

int main(void)
{
    built_from_nothing();
    built_and_read_back();
    built_at_the_edges();
    built_with_any_other_bytes();
    built_with_states();
    built_from_many();
    make_faults();
    each_fault_alone();
    each_fault_with_a_later_one();
    index_without_names();
    names_told_in_words();
    pairs_told_in_words();
    names_of_all_bytes();
    rest_of_a_name_unread();
    parts_after_a_bad_name_unread();
    return finished("builder");
}
