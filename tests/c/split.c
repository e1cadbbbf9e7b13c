/*
 * Parts out of a take, through the C interface, in both manners; then the builder from the same memory.
 *
 * Not tried: a name table that passes 4,294,967,295 bytes, which needs 286,331,154 names that differ; as morphs they have
 * 6 GiB.
 */
#include "check.h"
#include "expect.h"
#include "open.h"
#include "parts.h"
#include "split.h"
#include "vmd.h"

static struct fence lent_out, lent_slot;

/* ---- building from the memory that the call has written, which the builder reads as it is */

/* The answer is the builder's; where that is 0, what it gives is the file's export and these bytes. */
static void build_back_in(enum manner m, const struct bytes *file, const struct parts *expected, uint32_t number,
                          const struct bytes *canonical)
{
    struct slice s[SLICES];
    const void *p[SLICES];
    uint64_t part[2], written = canonical->len, len = 0;
    size_t n[BUFFERS], k;
    static struct bytes exported;
    uint8_t *out;
    lengths_of(expected, n);
    for (k = 0; k < BUFFERS; k++)
        n[k] += 5;
    split_into(m, file, n, VMD_OK, expected);
    lengths_of(expected, n);
    vmd_model_name(file->at, file->len, part);
    p[0] = file->at + part[0];
    s[0].len = part[1];
    for (k = 0; k < BUFFERS; k++) {
        p[k + 1] = lent_parts[k].at;
        s[k + 1].len = n[k];
    }
    out = lend_unwritten(&lent_out, canonical->len);
    expect_number("build", vmd_build_animation_from_parts(PARTS, out, canonical->len, lend_unwritten(&lent_slot, 8)), number);
    expect_parts(expected);
    if (number != VMD_OK) {
        expect_lent_unwritten("output", &lent_out);
        expect_lent_unwritten("written", &lent_slot);
        return;
    }
    expect_lent("built file", &lent_out, canonical->at, canonical->len);
    expect_lent("written", &lent_slot, &written, sizeof written);
    expect_written(lent_out.at, lent_out.len);
    expect_number("export", export_in(m, file->at, file->len, exported.at, sizeof exported.at, &len), VMD_OK);
    expect_number("export's length", len, canonical->len);
    expect_bytes("export", exported.at, canonical->at, canonical->len);
}

static void build_back(const struct bytes *file, const struct parts *expected, uint32_t number, const struct bytes *canonical)
{
    enum manner m;
    for (m = STRICT; m < MANNERS; m++)
        build_back_in(m, file, expected, number, canonical);
}

/* ---- takes */

static struct parts expected;
static struct bytes file, canonical;

/* In each edition that can hold its model name: the parts are the same. The newer one is last, and stays in file. */
static void try_take(const char *name, const struct take *t, enum form form)
{
    parts_of(&expected, t);
    if (t->model.len <= editions[OLDER].model_width) {
        trial("%s, older edition", name);
        encode_in(&file, OLDER, t, form);
        try_split(&file, alike(VMD_OK), &expected);
    }
    trial("%s", name);
    encode(&file, t, form);
    try_split(&file, alike(VMD_OK), &expected);
}

/* Of a file with no records no buffer needs to be there. */
static void null_buffers(const struct bytes *file, const struct parts *expected)
{
    static void *const null[BUFFERS];
    static const size_t none[BUFFERS];
    enum manner m;
    for (m = STRICT; m < MANNERS; m++) {
        const uint8_t *f = lend(&lent_file, file->at, file->len);
        expect_number("split", split_in(m, f, file->len, null, none, lend_unwritten(&lent_sizes, 32)), VMD_OK);
        expect_lent("file", &lent_file, file->at, file->len);
        expect_sizes("sizes", VMD_OK, expected);
    }
}

static void takes(void)
{
    struct take t = empty_take();
    try_take("the empty take", &t, CANONICAL);
    trial("start,0");
    file.len = 54;
    try_split(&file, alike(VMD_OK), &expected);
    trial("start,0 into null buffers");
    null_buffers(&file, &expected);
    encode_in(&file, OLDER, &t, CANONICAL);
    trial("start,0 of the older edition");
    file.len = 44;
    try_split(&file, alike(VMD_OK), &expected);
    null_buffers(&file, &expected);
    t = distinct_take(20, 0, 0, 0, 0, 0, 0);
    try_take("a model name and no records", &t, RAW);
    t = distinct_take(0, 1, 0, 0, 0, 0, 0);
    try_take("one bone", &t, CANONICAL);
    t = distinct_take(3, 0, 1, 0, 0, 0, 0);
    try_take("one morph", &t, RAW);
    t = distinct_take(10, 12, 12, 12, 12, 12, 12);
    try_take("six sections", &t, RAW);
    t = distinct_take(0, 2, 4, 1, 4, 1, 4);
    try_take("six sections and no model name", &t, CANONICAL);
    t = leg_take();
    try_take("a leg that goes off", &t, CANONICAL);
    t = distinct_take(2, 0, 0, 0, 3, 3, 0);
    try_take("lights and self-shadows", &t, RAW);
    t = good_take();
    try_take("a take that can be built", &t, RAW);
}

static void builds(void)
{
    struct take t = good_take();
    size_t k;
    trial("a take that can be built, built");
    encode(&file, &t, RAW);
    encode(&canonical, &t, CANONICAL);
    parts_of(&expected, &t);
    build_back(&file, &expected, VMD_OK, &canonical);
    trial("its export, built");
    build_back(&canonical, &expected, VMD_OK, &canonical);
    trial("the same take of the older edition, built");
    encode_in(&file, OLDER, &t, RAW);
    build_back(&file, &expected, VMD_OK, &canonical);
    t.model = named("ten bytes!");
    trial("an older take with a model name of ten bytes, built");
    encode_in(&file, OLDER, &t, RAW);
    encode(&canonical, &t, CANONICAL);
    build_back(&file, &expected, VMD_OK, &canonical);
    trial("20 times its records, built");
    encode_times(&file, &t, 20, RAW);
    encode_times(&canonical, &t, 20, CANONICAL);
    parts_of_times(&expected, &t, 20);
    build_back(&file, &expected, VMD_OK, &canonical);
    t = leg_take();
    trial("a leg that goes off, built");
    encode(&file, &t, RAW);
    parts_of(&expected, &t);
    encode(&canonical, &t, CANONICAL);
    build_back(&file, &expected, VMD_OK, &canonical);

    /* what a file may have and the builder does not take: every kind of name, of float, and the mode */
    for (k = 0; k < 14; k++) {
        static const uint32_t numbers[14] = {
            VMD_NAME_NOT_GOOD, VMD_NOT_FINITE, VMD_NOT_FINITE, VMD_SELF_SHADOW_UNFIT, VMD_NAME_NOT_GOOD,
            VMD_NAME_NOT_GOOD, VMD_NOT_FINITE, VMD_NOT_FINITE, VMD_SELF_SHADOW_UNFIT, VMD_NAME_NOT_GOOD,
            VMD_NAME_NOT_GOOD, VMD_NAME_NOT_GOOD, VMD_NAME_NOT_GOOD, VMD_NAME_NOT_GOOD
        };
        t = good_take();
        switch (k) {
        case 0: t.morphs[3].name = named("\x83"); break;
        case 1: t.bones[9].floats[6] = 0x7FC12345; break;
        case 2: t.morphs[8].weight = 0xFF800001; break;
        case 3: t.self_shadows[5].mode = 3; break;
        case 4: t.model = named("\xA0"); break;
        case 5: t.bones[9].name = named("\xFD"); break;
        case 6: t.cameras[2].floats[6] = 0x7F800000; break;
        case 7: t.lights[3].floats[5] = 0xFF800000; break;
        case 8: t.self_shadows[5].distance = 0x7F800001; break;
        case 9: t.properties[7].states[2].name = named("\x83\x7F"); break;
        case 10: t.model = named("\x85\x40"); break; /* a pair without a character, here and below */
        case 11: t.bones[9].name = named("A\x81\xAD"); break;
        case 12: t.morphs[8].name = named("\xEF\xFC"); break;
        case 13: t.properties[7].states[2].name = named("\xFC\x4C"); break;
        }
        trial("a take that the builder refuses with %u", (unsigned)numbers[k]);
        encode(&file, &t, RAW);
        encode(&canonical, &t, CANONICAL);
        parts_of(&expected, &t);
        build_back(&file, &expected, numbers[k], &canonical);
        trial("an older take that the builder refuses with %u", (unsigned)numbers[k]);
        encode_in(&file, OLDER, &t, RAW);
        build_back(&file, &expected, numbers[k], &canonical);
    }
}

/* Every float of a record is each odd one in turn; in the columns it keeps its bits. */
static void odd_floats_anywhere(void)
{
    size_t from;
    for (from = 0; from < ODD; from++) {
        struct take t = odd_floats_take(from);
        trial("odd floats from the %zuth on", from);
        encode(&file, &t, RAW);
        parts_of(&expected, &t);
        try_split_briefly(&file, alike(VMD_OK), &expected);
    }
}

/* Perspective, visible and enabled bytes 0, 1, 2, 7 and 255: all but 0 are written 1. IK states follow their frame. */
static void flags(void)
{
    static const uint8_t bytes[5] = {0, 1, 2, 7, 255};
    const uint8_t *camera, *property;
    struct take t = distinct_take(0, 0, 0, 5, 0, 0, 5);
    size_t k, n[BUFFERS];
    for (k = 0; k < 5; k++) {
        t.cameras[k].perspective = bytes[k];
        t.properties[k].visible = bytes[k];
        t.properties[k].n_states = 1;
        t.properties[k].states[0].name = named("leg");
        t.properties[k].states[0].enabled = bytes[4 - k];
    }
    try_take("flags of any value", &t, RAW);
    lengths_of(&expected, n);
    split_into(STRICT, &file, n, VMD_OK, &expected);
    camera = lent_parts[CAMERAS].at;
    property = lent_parts[PROPERTIES].at;
    expect_number("bytes of property frames", n[PROPERTIES], 5 * (9 + 21));
    for (k = 0; k < 5; k++) {
        expect_number("perspective", camera[61 * k + 60], k > 0);
        expect_number("visible", property[30 * k + 4], k > 0);
        expect_number("IK states", u32_at(property + 30 * k + 5), 1);
        expect_bytes("IK name", property + 30 * k + 9, "leg\0\0\0\0\0\0\0\0\0\0\0\0\0\0\0\0", 20);
        expect_number("enabled", property[30 * k + 29], k < 4);
    }
}

/* ---- names */

/* A take of records with these names; bytes after a name's zero differ from record to record. */
static void try_names(const char *what, const struct name *names, size_t n, int morphs, enum edition edition)
{
    static struct take t;
    static unsigned turn;
    size_t i, k;
    t = distinct_take(4, 0, 0, 1, 0, 0, 2);
    trial("%s: %zu %s, %s edition", what, n, morphs ? "morphs" : "bones", editions[edition].name);
    no_parts(&expected);
    file.len = 0;
    put_header_of(&file, edition, &t.model, RAW);
    put_u32(&file, morphs ? 0 : (uint32_t)n);
    if (morphs)
        put_u32(&file, (uint32_t)n);
    for (i = 0; i < n; i++) {
        struct bone bone;
        struct morph morph;
        size_t at = file.len;
        bone.name = morph.name = names[i];
        bone.frame = morph.frame = (uint32_t)i;
        next_u32s(bone.floats, 7);
        next_bytes(bone.interpolation, 64);
        morph.weight = next_u32();
        if (morphs) {
            put_morph(&file, &morph, RAW);
            add_morph(&expected, &morph);
        } else {
            put_bone(&file, &bone, RAW);
            add_bone(&expected, &bone);
        }
        for (k = names[i].len + 1; k < 15; k++)
            file.at[at + k] = (uint8_t)next_byte();
    }
    if (!morphs)
        put_u32(&file, 0);
    for (k = 2; k < SECTIONS; k++) {
        put_u32(&file, (uint32_t)t.counts[k]);
        put_records(&file, &t, (int)k, RAW);
        put_records(&expected.part[CAMERAS + k - 2], &t, (int)k, CANONICAL);
    }
    if (n < 100)
        try_split(&file, alike(VMD_OK), &expected);
    else /* many names take long: one manner and the other in turn */
        try_split_in(turn++ % 2 ? STRICT : LENIENT, &file, VMD_OK, &expected);
}

/* Of bones, and of morphs; a few of them in an older file too. */
static void try_names_of_both(const char *what, const struct name *names, size_t n)
{
    int morphs;
    for (morphs = 0; morphs < 2; morphs++) {
        if (n < 100)
            try_names(what, names, n, morphs, OLDER);
        try_names(what, names, n, morphs, NEWER);
    }
}

static void names(void)
{
    enum { MANY = 2200 };
    static struct name all[MANY];
    static const char *const few[] = {"", "a", "", "b", "a", "ab", "aa", "b", "", "\xFF", "\x7F", "\x80", "\x0A", "a\x0A"};
    static const char *const remarks[] = {"A", "A\nx", "A\ny", "A\nx", "A", "A\ny"};
    size_t i, len, n = sizeof few / sizeof *few;
    for (i = 0; i < n; i++)
        all[i] = named(few[i]);
    try_names_of_both("empty, repeated and first ones first", all, n);
    expect_number("names", expected.sizes[2], 10);
    expect_number("their bytes", expected.sizes[3], 0 + 1 + 1 + 2 + 2 + 1 + 1 + 1 + 1 + 2);
    for (i = 0; i < 6; i++)
        all[i] = named(remarks[i]);
    try_names_of_both("one track for tidying, and three names", all, 6);
    expect_number("names", expected.sizes[2], 3);
    expect_number("their bytes", expected.sizes[3], 1 + 3 + 3);
    expect_bytes("their bytes", expected.part[MORPH_NAME_BYTES].at, "AA\nxA\ny", 7);
    for (i = 0; i < 40; i++)
        all[i] = named("");
    try_names_of_both("empty ones alone", all, 40);
    for (i = 0; i < 40; i++)
        all[i] = named("fifteen letters");
    try_names_of_both("one that fills its field", all, 40);
    for (i = 0; i < 32; i++)
        all[i] = numbered(0x3FFFFFFF, i % 16, 0);
    try_names_of_both("each the next one's beginning, twice", all, 32);
    for (i = 0; i < 32; i++)
        all[i] = numbered(0x3FFFFFFF, 15 - i / 2, 0);
    try_names_of_both("each the next one's beginning, the longest first", all, 32);
    for (i = 0; i < 15 * 4; i++) {
        all[i] = named("fifteen_letters");
        all[i].at[i / 4] ^= (uint8_t)(i % 4 << 5);
    }
    try_names_of_both("other in one byte", all, 60);
    for (len = 4; len <= 15; len += 11) {
        for (i = 0; i < MANY; i++)
            all[i] = numbered((uint32_t)i, len, 0);
        try_names_of_both("all different, rising", all, MANY);
        for (i = 0; i < MANY; i++)
            all[i] = numbered((uint32_t)(MANY - 1 - i), len, 0);
        try_names_of_both("all different, falling", all, MANY);
        for (i = 0; i < MANY; i++)
            all[i] = numbered((uint32_t)i, len, 1);
        try_names_of_both("all different in their first bytes", all, MANY);
        for (i = 0; i < MANY; i++)
            all[i] = numbered((uint32_t)(7 * i % 31), 1 + i % len, (int)(i / 31 % 2));
        try_names_of_both("few in any order", all, MANY);
    }
}

/* ---- files as others write them, and files that are refused */

/* A file cut anywhere has the parts of what it means, or is refused. */
static void cut_anywhere(enum edition edition)
{
    static struct opening o;
    struct take t = distinct_take(9, 2, 2, 2, 2, 2, 3);
    size_t n;
    encode_in(&file, edition, &t, RAW);
    for (n = file.len; n-- > 0;) {
        struct reading reads;
        struct take left;
        file.len = n;
        reads = expected_reading(file.at, n, &o);
        trial("a file of the %s edition cut after %zu bytes", editions[edition].name, n);
        if (reads.in[LENIENT] != VMD_OK) {
            try_split_refused(&file, reads);
            continue;
        }
        left = left_of(&t, &o);
        parts_of(&expected, &left);
        try_split_briefly(&file, reads, &expected);
    }
}

/* A count that the rest of the file cannot hold, of each section, and bytes over. */
static void other_counts(enum edition edition)
{
    struct take t = distinct_take(9, 2, 2, 2, 2, 2, 3);
    static struct opening o;
    size_t s, k;
    for (s = 0; s < SECTIONS; s++) {
        struct take means = t;
        encode_in(&file, edition, &t, RAW);
        expected_opening(STRICT, file.at, file.len, &o);
        set_u32(&file, o.places[s] - 4, 0xFFFFFFFF);
        trial("a count of section %zu that is too large, %s edition", s, editions[edition].name);
        if (s < 2 || s == 5) {
            try_split_refused(&file, alike(VMD_ENDS_EARLY));
            continue;
        }
        for (k = s; k < SECTIONS; k++)
            means.counts[k] = 0;
        parts_of(&expected, &means);
        try_split(&file, reading(VMD_COUNT_OVERSIZED, VMD_OK), &expected);
    }
    trial("bytes after the last property frame, %s edition", editions[edition].name);
    encode_in(&file, edition, &t, RAW);
    put(&file, file.at, 50);
    parts_of(&expected, &t);
    try_split(&file, reading(VMD_BYTES_OVER, VMD_OK), &expected);
}

static void refusals(enum edition edition)
{
    struct take t = distinct_take(5, 2, 1, 1, 1, 1, 3);
    encode_in(&file, edition, &t, RAW);
    trial("a file of the %s edition whose last byte is missing", editions[edition].name);
    file.len -= 1;
    try_split_refused(&file, alike(VMD_ENDS_EARLY));
    trial("another magic");
    file.len += 1;
    file.at[0] = 'v';
    try_split_refused(&file, alike(VMD_MAGIC_DIFFERS));
    trial("no bytes at all");
    file.len = 0;
    try_split_refused(&file, alike(VMD_ENDS_EARLY));
}

/* More records of each kind than one byte can count. */
static void many_records(enum edition edition)
{
    struct take t = distinct_take(3, 5, 6, 5, 6, 7, 8);
    size_t n[BUFFERS];
    enum manner m;
    trial("60 times the records of a take, %s edition", editions[edition].name);
    encode_times_in(&file, edition, &t, 60, RAW);
    parts_of_times(&expected, &t, 60);
    try_split_briefly(&file, alike(VMD_OK), &expected);
    lengths_of(&expected, n);
    n[WEIGHTS] -= 1;
    for (m = STRICT; m < MANNERS; m++)
        split_into(m, &file, n, VMD_PARTS_DO_NOT_FIT, NULL);
}

int main(void)
{
    enum edition edition;
    takes();
    builds();
    odd_floats_anywhere();
    flags();
    names();
    for (edition = NEWER; edition < EDITIONS; edition++) {
        cut_anywhere(edition);
        other_counts(edition);
        refusals(edition);
        many_records(edition);
    }
    return finished("split");
}
