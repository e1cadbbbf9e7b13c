/*
 * Saving, in both editions, and joining, through the C interface, in both manners: every byte of every output, against an
 * encoder of the test's own.
 *
 * Refusal 11 of joining needs two files with more than 4,294,967,295 records of a kind between them: manners.c has it.
 */
#include "check.h"
#include "damaged.h"
#include "expect.h"
#include "open.h"
#include "readback.h"
#include "save.h"
#include "vmd.h"

/* ---- the samples */

enum { MOST_SAMPLES = 24 };

static struct sample samples[MOST_SAMPLES];
static size_t n_samples;

static struct sample *add_in(enum edition edition, const char *name, const struct take *means, enum form form)
{
    struct sample *s = &samples[n_samples++];
    snprintf(s->name, sizeof s->name, "%s", name);
    make_whole(s, edition, means, form);
    return s;
}

static struct sample *add(const char *name, const struct take *means, enum form form)
{
    return add_in(NEWER, name, means, form);
}

/* Sections left out at the end, counts that no section can have, bytes over. */
static void add_damaged_samples(void)
{
    struct take t = distinct_take(6, 2, 0, 0, 0, 0, 0), whole = distinct_take(0, 1, 1, 2, 2, 2, 2);
    struct sample *s = add("two bones, and no counts after them", &t, RAW);
    s->file.len = 50 + 4 + 2 * 111;

    s = add("a camera count that is too large, and lights after it", &whole, RAW);
    oversize(s, VMD_CAMERAS, 0x01000003);
    s = add("a light count that is too large, and self-shadows after it", &whole, RAW);
    oversize(s, VMD_LIGHTS, 0xFFFFFFFF);
    s = add("a self-shadow count that is too large, and properties after it", &whole, RAW);
    oversize(s, VMD_SELF_SHADOWS, 0x80);
    s = add("bytes after the last property frame", &whole, RAW);
    put_over(s, 50, OWN_BYTES);
}

static void add_older_samples(void)
{
    struct take t = empty_take(), whole = distinct_take(0, 1, 1, 2, 2, 2, 2);
    struct sample *s = add_in(OLDER, "start,0 of the older edition", &t, CANONICAL);
    s->file.len = 44;
    t = distinct_take(10, 3, 2, 3, 2, 3, 4);
    add_in(OLDER, "six sections of the older edition", &t, RAW);
    t = distinct_take(9, 0, 0, 0, 0, 0, 3);
    add_in(OLDER, "an older leg", &t, CANONICAL);
    t = distinct_take(10, 1, 0, 0, 0, 0, 0);
    s = add_in(OLDER, "an older bone, and no counts after it", &t, RAW);
    s->file.len = 40 + 4 + 111;
    s = add_in(OLDER, "an older camera count that is too large, and no model name", &whole, RAW);
    oversize(s, VMD_CAMERAS, 0x01000003);
    s = add_in(OLDER, "bytes after the last property frame of an older take", &whole, RAW);
    put_over(s, 50, OWN_BYTES);
}

static void make_samples(void)
{
    struct take t = empty_take();
    struct sample *s = add("start,0", &t, CANONICAL);
    s->file.len = 54;
    add("the empty take's export", &t, CANONICAL);
    t = distinct_take(8, 0, 0, 0, 0, 0, 0);
    add("a model name and no records", &t, RAW);
    t = distinct_take(0, 1, 0, 0, 0, 0, 0);
    add("one bone", &t, CANONICAL);
    t = distinct_take(0, 1, 0, 0, 0, 0, 0);
    add("another bone", &t, RAW);
    t = distinct_take(20, 3, 2, 3, 2, 3, 4);
    add("six sections", &t, RAW);
    t = distinct_take(0, 2, 4, 1, 4, 1, 4);
    add("six sections and no model name", &t, CANONICAL);
    t = leg_take();
    add("a leg that goes off", &t, CANONICAL);
    t = distinct_take(2, 1, 0, 0, 0, 0, 4);
    add("another leg", &t, RAW);
    t = odd_floats_take(0);
    add("odd floats", &t, RAW);
    t = distinct_take(19, 0, 4, 4, 0, 0, 0);
    add("morphs and cameras", &t, RAW);
    t = distinct_take(0, 0, 0, 0, 3, 3, 0);
    add("lights and self-shadows", &t, RAW);
    add_damaged_samples();
    add_older_samples();
}

/* ---- what is expected of all of them */

static void exports(void)
{
    size_t k;
    for (k = 0; k < n_samples; k++) {
        const struct sample *s = &samples[k];
        struct bytes expected;
        encode(&expected, &s->means, CANONICAL);
        trial("export of %s", s->name);
        expect_number("the test's own size", expected.len, canonical_size(&s->means));
        try_export(&s->file, s->reads, &expected);
        trial("export of the export of %s", s->name);
        try_export(&expected, alike(VMD_OK), &expected);
    }
}

/* The file that a call writes into room enough, and its answer. */
static uint32_t export(enum manner m, const struct bytes *file, struct bytes *out)
{
    uint64_t len = 0;
    uint32_t number = export_in(m, file->at, file->len, out->at, sizeof out->at, &len);
    out->len = len;
    return number;
}

static uint32_t join(enum manner m, const struct bytes *first, const struct bytes *second, struct bytes *out)
{
    uint64_t len = 0;
    uint32_t number = join_in(m, first->at, first->len, second->at, second->len, out->at, sizeof out->at, &len);
    out->len = len;
    return number;
}

/* What the library writes in the older edition: widened it is the export, it reads as the take, and converts to itself. */
static void older_laws(enum manner m, const struct sample *s)
{
    struct bytes exported, older, widened;
    uint64_t len = 0;
    expect_number("export", export(m, &s->file, &exported), VMD_OK);
    expect_number("older", older_in(m, s->file.at, s->file.len, older.at, sizeof older.at, &len), VMD_OK);
    older.len = len;
    widen(&widened, &older);
    expect_number("widened length", widened.len, exported.len);
    expect_bytes("widened", widened.at, exported.at, exported.len);
    field_by_field(&s->means, older.at, older.len);
    try_export(&older, alike(VMD_OK), &exported);
    try_older(&older, alike(VMD_OK), &older);
}

/* The older edition of each sample that it can hold; the others are 15. */
static void older_exports(void)
{
    size_t k;
    enum manner m;
    for (k = 0; k < n_samples; k++) {
        const struct sample *s = &samples[k];
        size_t len = canonical_size(&s->means) - 10;
        struct bytes expected;
        trial("older edition of %s", s->name);
        if (s->means.model.len > 10) {
            try_older_refused(&s->file, then(s->reads, alike(VMD_MODEL_NAME_TOO_LONG)), len);
            continue;
        }
        encode_in(&expected, OLDER, &s->means, CANONICAL);
        expect_number("the test's own size", expected.len, len);
        try_older(&s->file, s->reads, &expected);
        trial("older edition of %s, read", s->name);
        for (m = STRICT; m < MANNERS; m++)
            if (s->reads.in[m] == VMD_OK)
                older_laws(m, s);
    }
}

/* Every float of a record is each odd one in turn. */
static void odd_floats_anywhere(void)
{
    size_t n;
    for (n = 0; n < ODD; n++) {
        struct take t = odd_floats_take(n), both = joined(&t, &t);
        struct bytes b, expected;
        encode(&b, &t, RAW);
        encode(&expected, &t, CANONICAL);
        trial("odd floats from the %zuth on", n);
        try_export(&b, alike(VMD_OK), &expected);
        encode_in(&expected, OLDER, &t, CANONICAL);
        try_older(&b, alike(VMD_OK), &expected);
        encode(&expected, &both, CANONICAL);
        try_join(&b, &b, alike(VMD_OK), &expected);
    }
}

/* Each with each. With the empty take, on either side, this is the other's export. */
static void joins(void)
{
    size_t k, l;
    for (k = 0; k < n_samples; k++)
        for (l = 0; l < n_samples; l++) {
            const struct sample *first = &samples[k], *second = &samples[l];
            struct take means = joined(&first->means, &second->means);
            struct bytes expected;
            encode(&expected, &means, CANONICAL);
            trial("join of %s with %s", first->name, second->name);
            try_join(&first->file, &second->file, then(first->reads, second->reads), &expected);
        }
}

static void empty_takes_on_either_side(void)
{
    size_t k, e;
    enum manner m;
    for (k = 0; k < n_samples; k++)
        for (e = 0; e < 2; e++)
            for (m = STRICT; m < MANNERS; m++) {
                const struct bytes *file = &samples[k].file;
                uint32_t number = samples[k].reads.in[m];
                struct bytes exported;
                trial("%s joined with %s", samples[k].name, samples[e].name);
                expect_number("export", export(m, file, &exported), number);
                join_into(m, file, &samples[e].file, number, &exported, exported.len);
                join_into(m, &samples[e].file, file, number, &exported, exported.len);
            }
}

/* Three joined both ways: a half that was written is accepted, and the answer is the first of the three refusals. */
static void join_three(enum manner m, const struct sample *first, const struct sample *second, const struct sample *third,
                       const struct bytes *expected)
{
    static struct bytes half, left, right;
    uint32_t of_first_two = first_of(first->reads.in[m], second->reads.in[m]);
    uint32_t of_last_two = first_of(second->reads.in[m], third->reads.in[m]);
    uint32_t number = first_of(first->reads.in[m], of_last_two);
    expect_number("the first two", join(m, &first->file, &second->file, &half), of_first_two);
    if (of_first_two == VMD_OK)
        expect_number("and the third", join(m, &half, &third->file, &left), number);
    expect_number("the last two", join(m, &second->file, &third->file, &half), of_last_two);
    if (of_last_two == VMD_OK)
        expect_number("after the first", join(m, &first->file, &half, &right), number);
    if (number != VMD_OK)
        return;
    expect_number("length, the first two first", left.len, expected->len);
    expect_number("length, the last two first", right.len, expected->len);
    expect_bytes("the first two first", left.at, expected->at, expected->len);
    expect_bytes("the last two first", right.at, expected->at, expected->len);
}

/* Three joined both ways, and the bytes told by the encoder. */
static void three_joined(void)
{
    size_t i, j, k;
    enum manner m;
    for (i = 0; i < n_samples; i++)
        for (j = 0; j < n_samples; j++)
            for (k = 0; k < n_samples; k++) {
                struct take means = joined(&samples[i].means, &samples[j].means);
                struct bytes expected;
                means = joined(&means, &samples[k].means);
                encode(&expected, &means, CANONICAL);
                trial("join of %s, %s and %s", samples[i].name, samples[j].name, samples[k].name);
                for (m = STRICT; m < MANNERS; m++)
                    join_three(m, &samples[i], &samples[j], &samples[k], &expected);
            }
}

/* More records of each kind than one byte can count. */
static void many_records(void)
{
    static struct bytes first, second, expected;
    struct take t = distinct_take(3, 5, 6, 5, 6, 7, 8);
    trial("60 times the records of a take");
    encode_times(&first, &t, 60, RAW);
    encode_times(&expected, &t, 60, CANONICAL);
    try_export(&first, alike(VMD_OK), &expected);
    encode_times_in(&expected, OLDER, &t, 60, CANONICAL);
    try_older(&first, alike(VMD_OK), &expected);
    trial("60 times the records of an older take");
    encode_times_in(&first, OLDER, &t, 60, RAW);
    try_older(&first, alike(VMD_OK), &expected);
    encode_times(&expected, &t, 60, CANONICAL);
    try_export(&first, alike(VMD_OK), &expected);
    trial("40 times the records of a take, and 50 times");
    encode_times(&first, &t, 40, RAW);
    encode_times(&second, &t, 50, RAW);
    encode_times(&expected, &t, 90, CANONICAL);
    try_join(&first, &second, alike(VMD_OK), &expected);
    trial("40 times the records of a take, and 50 times those of an older one");
    encode_times_in(&second, OLDER, &t, 50, RAW);
    try_join(&first, &second, alike(VMD_OK), &expected);
    try_join(&second, &first, alike(VMD_OK), &expected);
}

/* ---- what the paper tells in figures and words */

static void one_bone_each(enum manner m)
{
    struct take t = distinct_take(0, 1, 0, 0, 0, 0, 0), u = distinct_take(0, 1, 0, 0, 0, 0, 0);
    struct bytes first, second;
    uint64_t size = 0, written = 0;
    uint8_t out[296];
    trial("two one-bone takes");
    encode(&first, &t, CANONICAL);
    encode(&second, &u, CANONICAL);
    expect_number("length of the first", first.len, 185);
    expect_number("length of the second", second.len, 185);
    expect_number("join_size", join_size_in(m, first.at, 185, second.at, 185, &size), VMD_OK);
    expect_number("join_size", size, 296);
    expect_number("join", join_in(m, first.at, 185, second.at, 185, out, 296, &written), VMD_OK);
    expect_number("written", written, 296);
    expect_number("bone count", u32_at(out + 50), 2);
    expect_bytes("first bone", out + 54, first.at + 54, 111);
    expect_bytes("second bone", out + 54 + 111, second.at + 54, 111);
}

static void bare_take(enum manner m)
{
    static const uint8_t zeros[24];
    uint64_t written = 0;
    uint8_t out[74], file[54] = "Vocaloid Motion Data 0002";
    trial("export of start,0");
    expect_number("export", export_in(m, file, 54, out, 74, &written), VMD_OK);
    expect_number("written", written, 74);
    expect_bytes("header", out, file, 50);
    expect_bytes("counts", out + 50, zeros, 24);
}

/* The older edition in figures: start,0 of 44 bytes, saved as 74 and as 64; its name is padded to 10. */
static void bare_older_take(enum manner m)
{
    static const uint8_t file[44] = "Vocaloid Motion Data file\0wxyzname\0past", zeros[24];
    uint8_t out[80];
    uint64_t n = 0;
    trial("start,0 of the older edition");
    expect_number("export_size", export_size_in(m, file, 44, &n), VMD_OK);
    expect_number("export_size", n, 74);
    expect_number("export", export_in(m, file, 44, out, 74, &n), VMD_OK);
    expect_number("written", n, 74);
    expect_bytes("magic", out, "Vocaloid Motion Data 0002\0\0\0\0", 30);
    expect_bytes("model name", out + 30, "name", 4);
    expect_bytes("after it", out + 34, zeros, 16);
    expect_bytes("counts", out + 50, zeros, 24);
    expect_number("export_older_size", older_size_in(m, file, 44, &n), VMD_OK);
    expect_number("export_older_size", n, 64);
    memset(out, UNWRITTEN, sizeof out);
    expect_number("export_older_animation", older_in(m, file, 44, out, 80, &n), VMD_OK);
    expect_number("written", n, 64);
    expect_bytes("older magic", out, "Vocaloid Motion Data file\0\0\0\0", 30);
    expect_bytes("older model name", out + 30, "name\0\0\0\0\0", 10);
    expect_bytes("older counts", out + 40, zeros, 24);
    expect_unwritten("after the older counts", out + 64, 16);
}

/* Perspective bytes 0, 1, 2 are written 0, 1, 1, and every flag but 0 as 1; 0x41 0x00 0x42 is written 0x41 and zeros. */
static void written_forms(enum manner m)
{
    struct take t = distinct_take(0, 1, 0, 3, 0, 0, 3);
    struct bytes b;
    uint8_t out[1024];
    uint64_t written = 0;
    size_t k, cameras = 50 + 4 + 111 + 4 + 4, properties = cameras + 3 * 61 + 4 + 4 + 4;
    static const uint8_t forms[3] = {0, 1, 1}, zeros[14];
    for (k = 0; k < 3; k++) {
        t.cameras[k].perspective = (uint8_t)k;
        t.properties[k].visible = (uint8_t)k;
        t.properties[k].n_states = 1;
        t.properties[k].states[0].name = named("leg");
        t.properties[k].states[0].enabled = (uint8_t)k;
    }
    t.bones[0].name = named("A");
    encode(&b, &t, CANONICAL);
    for (k = 0; k < 3; k++) {
        b.at[cameras + 61 * k + 60] = (uint8_t)k;
        b.at[properties + 30 * k + 4] = (uint8_t)k;
        b.at[properties + 30 * k + 29] = (uint8_t)k;
    }
    memcpy(b.at + 54, "A\0B", 3);
    trial("written forms");
    expect_number("export", export_in(m, b.at, b.len, out, sizeof out, &written), VMD_OK);
    expect_number("written", written, b.len);
    for (k = 0; k < 3; k++) {
        expect_number("perspective byte", out[cameras + 61 * k + 60], forms[k]);
        expect_number("visible byte", out[properties + 30 * k + 4], forms[k]);
        expect_number("enabled byte", out[properties + 30 * k + 29], forms[k]);
    }
    expect_number("name", out[54], 'A');
    expect_bytes("after the name", out + 55, zeros, 14);
}

/* ---- a leg's IK states after saving and joining: number, name and enabled of every one */

static void legs_stay_off(enum manner m)
{
    struct take leg = leg_take(), other = distinct_take(3, 2, 1, 1, 1, 1, 4), both;
    struct bytes l, o, out;
    encode(&l, &leg, RAW);
    encode(&o, &other, RAW);
    trial("a leg that goes off, exported");
    expect_number("export", export(m, &l, &out), VMD_OK);
    field_by_field(&leg, out.at, out.len);
    expect_number("IK states told in the test", states_of(&leg), 6);
    trial("a leg that goes off, joined with another take");
    expect_number("join", join(m, &l, &o, &out), VMD_OK);
    both = joined(&leg, &other);
    field_by_field(&both, out.at, out.len);
    trial("another take, joined with a leg that goes off");
    expect_number("join", join(m, &o, &l, &out), VMD_OK);
    both = joined(&other, &leg);
    field_by_field(&both, out.at, out.len);
}

/* ---- what opening a join gives: the smaller of the two smallest frames, the larger of the two largest */

/* Two takes, each with its records in any one section, in both orders. One without records does not count. */
static void joined_frames(enum manner m)
{
    static const struct {
        size_t n[2];
        uint32_t frames[2][2];
        uint64_t smallest, largest;
    } rows[] = {
        {{0, 0}, {{0}, {0}}, 0, 0},
        {{1, 0}, {{0}, {0}}, 0, 0},
        {{2, 0}, {{9, 5}, {0}}, 5, 9},
        {{1, 0}, {{0xFFFFFFFF}, {0}}, 0xFFFFFFFF, 0xFFFFFFFF},
        {{1, 1}, {{0xFFFFFFFF}, {0xFFFFFFFF}}, 0xFFFFFFFF, 0xFFFFFFFF},
        {{1, 1}, {{0xFFFFFFFF}, {4}}, 4, 0xFFFFFFFF},
        {{2, 2}, {{5, 9}, {7, 3}}, 3, 9},
        {{2, 2}, {{5, 9}, {7, 6}}, 5, 9},
        {{2, 2}, {{5, 9}, {3, 1}}, 1, 9},
        {{2, 1}, {{0, 9}, {8}}, 0, 9},
    };
    size_t k, i;
    int sections[2], take;
    for (k = 0; k < sizeof rows / sizeof *rows; k++)
        for (sections[0] = 0; sections[0] < SECTIONS; sections[0]++)
            for (sections[1] = 0; sections[1] < SECTIONS; sections[1]++) {
                struct bytes files[2], out;
                for (take = 0; take < 2; take++) {
                    struct take t = one_section_take(sections[take], rows[k].n[take]);
                    for (i = 0; i < rows[k].n[take]; i++)
                        *frame_of(&t, sections[take], i) = rows[k].frames[take][i];
                    encode(&files[take], &t, RAW);
                }
                for (take = 0; take < 2; take++) {
                    trial("frames of row %zu in sections %d and %d, take %d first", k, sections[0], sections[1], take);
                    expect_number("join", join(m, &files[take], &files[1 - take], &out), VMD_OK);
                    try_frames(&out, alike(VMD_OK), rows[k].smallest, rows[k].largest);
                }
            }
}

/* Each sample with each that is accepted, so in both orders too. What is expected of opening the two tells it. */
static void frames_of_joined_samples(enum manner m)
{
    enum { SMALLEST = VMD_TOTAL_SMALLEST_FRAME, LARGEST = VMD_TOTAL_LARGEST_FRAME };
    size_t k, l;
    for (k = 0; k < n_samples; k++)
        for (l = 0; l < n_samples; l++) {
            const struct bytes *first = &samples[k].file, *second = &samples[l].file;
            struct opening o, p;
            struct bytes out;
            if (expected_opening(m, first->at, first->len, &o) != VMD_OK
                || expected_opening(m, second->at, second->len, &p) != VMD_OK)
                continue;
            if (records_of(&o) == 0)
                o = p;
            if (records_of(&p) == 0)
                p = o;
            trial("frames of %s joined with %s", samples[k].name, samples[l].name);
            expect_number("join", join(m, first, second, &out), VMD_OK);
            try_frames(&out, alike(VMD_OK), smaller(o.totals[SMALLEST], p.totals[SMALLEST]),
                       larger(o.totals[LARGEST], p.totals[LARGEST]));
        }
}

/* ---- the joined model name */

/* Of files of these editions. Each has a bone, so that no zero comes after a name that fills its field. */
static void try_joined_model(const char *first_name, enum edition first_edition, const char *second_name,
                             enum edition second_edition, const uint64_t part[3])
{
    struct take t = distinct_take(0, 1, 0, 0, 0, 0, 0), u = distinct_take(0, 1, 1, 0, 0, 0, 0);
    struct bytes first, second, out;
    enum manner m;
    t.model = named(first_name);
    u.model = named(second_name);
    encode_in(&first, first_edition, &t, RAW);
    encode_in(&second, second_edition, &u, RAW);
    trial("model names '%s', %s, and '%s', %s", first_name, editions[first_edition].name, second_name,
          editions[second_edition].name);
    expect_joined_model(&first, &second, part);
    t.model = named(first_name[0] != '\0' ? first_name : second_name);
    for (m = STRICT; m < MANNERS; m++) {
        expect_number("join", join(m, &first, &second, &out), VMD_OK);
        expect_bytes("model name in the join", out.at + 30, t.model.at, 20);
    }
    first.len = editions[first_edition].sections;
    second.len = editions[second_edition].sections;
    trial("the same, of the headers alone");
    expect_joined_model(&first, &second, part);
}

static void joined_models(void)
{
    static const struct {
        const char *first, *second;
        uint64_t part[3];
    } rows[] = {
        {"one", "two", {0, 30, 3}}, {"one", "", {0, 30, 3}}, {"", "second", {1, 30, 6}}, {"", "", {0, 0, 0}},
        {"1234567890", "x", {0, 30, 10}}, {"", "1234567890", {1, 30, 10}}, {"1234567890", "abcdefghij", {0, 30, 10}},
        {"12345678901234567890", "x", {0, 30, 20}}, {"", "12345678901234567890", {1, 30, 20}},
    };
    size_t k;
    enum edition first, second;
    for (k = 0; k < sizeof rows / sizeof *rows; k++)
        for (first = NEWER; first < EDITIONS; first++)
            for (second = NEWER; second < EDITIONS; second++)
                if (strlen(rows[k].first) <= editions[first].model_width
                    && strlen(rows[k].second) <= editions[second].model_width)
                    try_joined_model(rows[k].first, first, rows[k].second, second, rows[k].part);
}

/* A file whose header is refused has no model name, also where its bytes are there. */
static void joined_models_of_refused_headers(void)
{
    static const uint64_t first[3] = {0, 30, 4}, second[3] = {1, 30, 4}, neither[3] = {0, 0, 0};
    struct name name = named("name");
    struct bytes good, bad, cut, none;
    enum edition edition;
    none.len = 0;
    for (edition = NEWER; edition < EDITIONS; edition++) {
        good.len = 0;
        put_header_of(&good, edition, &name, RAW);
        bad = cut = good;
        bad.at[24] = '3';
        cut.len -= 1;
        trial("model names of files whose header is refused, %s edition", editions[edition].name);
        expect_joined_model(&bad, &good, second);
        expect_joined_model(&cut, &good, second);
        expect_joined_model(&good, &bad, first);
        expect_joined_model(&cut, &bad, neither);
        expect_joined_model(&bad, &cut, neither);
        expect_joined_model(&none, &none, neither);
    }
}

/* ---- the model name that the older edition can hold */

/* Up to 10 bytes, whatever stands after them in their field; 15 from 11 on. An older file has no longer one. */
static void names_up_to_ten(void)
{
    size_t n;
    int form;
    for (n = 0; n <= 20; n++)
        for (form = CANONICAL; form <= RAW; form++) {
            struct take t = distinct_take(n, 2, 1, 1, 1, 1, 3);
            struct bytes b, expected;
            trial("a model name of %zu bytes, form %d", n, form);
            encode(&b, &t, (enum form)form);
            if (n > 10) {
                try_older_refused(&b, alike(VMD_MODEL_NAME_TOO_LONG), b.len - 10);
                continue;
            }
            encode_in(&expected, OLDER, &t, CANONICAL);
            try_older(&b, alike(VMD_OK), &expected);
            trial("an older model name of %zu bytes, form %d", n, form);
            encode_in(&b, OLDER, &t, (enum form)form);
            try_older(&b, alike(VMD_OK), &expected);
        }
}

/* ---- refusals: the first file's before the second's, both before 13 */

static void exports_refused(enum edition edition)
{
    static struct sample files[ANSWERS];
    int k;
    make_each_answer(edition, files);
    for (k = 0; k < ANSWERS; k++) {
        const struct sample *s = &files[k];
        struct bytes expected;
        trial("export of file %d of the %s edition, to be refused with %u", k, editions[edition].name,
              (unsigned)s->reads.in[STRICT]);
        if (s->reads.in[LENIENT] != VMD_OK) {
            try_export_refused(&s->file, s->reads);
            try_older_refused(&s->file, s->reads, 4096);
            continue;
        }
        encode(&expected, &s->means, CANONICAL);
        try_export(&s->file, s->reads, &expected);
        encode_in(&expected, OLDER, &s->means, CANONICAL);
        try_older(&s->file, s->reads, &expected);
    }
}

/* Each file with each, of these editions. */
static void joins_refused(enum edition first_edition, enum edition second_edition)
{
    static struct sample first[ANSWERS], second[ANSWERS];
    int f, s;
    make_each_answer(first_edition, first);
    make_each_answer(second_edition, second);
    for (f = 0; f < ANSWERS; f++)
        for (s = 0; s < ANSWERS; s++) {
            struct reading reads = then(first[f].reads, second[s].reads);
            struct take both = joined(&first[f].means, &second[s].means);
            struct bytes expected;
            trial("join of file %d of the %s edition with file %d of the %s", f, editions[first_edition].name, s,
                  editions[second_edition].name);
            encode(&expected, &both, CANONICAL);
            try_join(&first[f].file, &second[s].file, reads, &expected);
        }
}

/* Headers that are cut, before and after other files. */
static void headers_refused(enum edition edition)
{
    static struct sample files[ANSWERS];
    int k, l;
    make_each_answer(edition, files);
    for (k = 0; k < 3; k++) {
        struct bytes *b = &files[CUT].file;
        b->len = k == 0 ? editions[edition].sections - 1 : k == 1 ? MAGIC_FIELD : 0;
        trial("%zu bytes of the %s edition", b->len, editions[edition].name);
        try_export_refused(b, alike(VMD_ENDS_EARLY));
        try_older_refused(b, alike(VMD_ENDS_EARLY), 100);
        for (l = 0; l < ANSWERS; l++) {
            try_join_refused(b, &files[l].file, alike(VMD_ENDS_EARLY));
            try_join_refused(&files[l].file, b, then(files[l].reads, alike(VMD_ENDS_EARLY)));
        }
    }
}

/* The file's own refusal comes before 15, wherever in the file it is met; 15 comes before 13. */
static void refusals_of_long_names(void)
{
    struct take t = distinct_take(11, 2, 1, 1, 1, 1, 3);
    struct bytes whole, b;
    struct opening o;
    size_t n;
    encode(&whole, &t, RAW);
    for (n = whole.len + 5; n-- > 0;) {
        b = whole;
        b.len = n;
        if (n > whole.len)
            memset(b.at + whole.len, 0, n - whole.len);
        trial("a file with a model name of 11 bytes, cut or with bytes over, %zu of %zu bytes", n, whole.len);
        try_older_refused(&b, then(expected_reading(b.at, n, &o), alike(VMD_MODEL_NAME_TOO_LONG)), whole.len - 10);
    }
    for (n = 0; n < 26; n++) {
        b = whole;
        b.at[n] ^= 1;
        trial("a file with a model name of 11 bytes, byte %zu of its magic changed", n);
        try_older_refused(&b, alike(VMD_MAGIC_DIFFERS), whole.len - 10);
    }
}

/* A file cut anywhere is exported as what it means, or refused. */
static void cut_anywhere(enum edition edition)
{
    struct take t = distinct_take(9, 2, 2, 2, 2, 2, 3), u = distinct_take(0, 1, 0, 0, 0, 0, 2);
    struct bytes b, other, expected;
    struct opening o;
    size_t n;
    encode_in(&b, edition, &t, RAW);
    encode(&other, &u, RAW);
    for (n = b.len; n-- > 0;) {
        struct reading reads;
        struct take cut, both;
        b.len = n;
        reads = expected_reading(b.at, n, &o);
        trial("a file of the %s edition cut after %zu bytes", editions[edition].name, n);
        if (reads.in[LENIENT] != VMD_OK) {
            try_export_refused(&b, reads);
            try_older_refused(&b, reads, 4096);
            try_join_refused(&b, &other, reads);
            try_join_refused(&other, &b, reads);
            continue;
        }
        cut = left_of(&t, &o);
        encode(&expected, &cut, CANONICAL);
        try_export(&b, reads, &expected);
        encode_in(&expected, OLDER, &cut, CANONICAL);
        try_older(&b, reads, &expected);
        both = joined(&cut, &u);
        encode(&expected, &both, CANONICAL);
        try_join(&b, &other, reads, &expected);
        both = joined(&u, &cut);
        encode(&expected, &both, CANONICAL);
        try_join(&other, &b, reads, &expected);
    }
}

int main(void)
{
    enum edition edition, other;
    enum manner m;
    make_samples();
    exports();
    older_exports();
    odd_floats_anywhere();
    joins();
    empty_takes_on_either_side();
    three_joined();
    many_records();
    for (m = STRICT; m < MANNERS; m++) {
        one_bone_each(m);
        bare_take(m);
        bare_older_take(m);
        written_forms(m);
        legs_stay_off(m);
        joined_frames(m);
        frames_of_joined_samples(m);
    }
    joined_models();
    joined_models_of_refused_headers();
    names_up_to_ten();
    refusals_of_long_names();
    for (edition = NEWER; edition < EDITIONS; edition++) {
        exports_refused(edition);
        for (other = NEWER; other < EDITIONS; other++)
            joins_refused(edition, other);
        headers_refused(edition);
        cut_anywhere(edition);
    }
    return finished("export_join");
}
