/* Opening in both manners, records by number, names and interpolation bytes, through the C interface. */
#include "check.h"
#include "damaged.h"
#include "expect.h"
#include "fetch.h"
#include "open.h"
#include "readback.h"
#include "vmd.h"

#include <math.h>

static struct fence lent_values;

/* ---- fetching: every call with one number, against the record that the layout has at the place */

static void fetch_bone(const struct view *v, size_t i)
{
    const uint8_t *r = expected_record(v, VMD_BONES, i);
    uint32_t record[8] = {0};
    uint64_t part[2];
    size_t k;
    for (k = 0; r != NULL && k < 8; k++)
        record[k] = u32_at(r + 15 + 4 * k);
    expect_fetched("bone_frame", vmd_bone_frame(VIEW(v), i, lend_unwritten(&lent_slot, sizeof record)), r, record,
                   sizeof record);
    expected_name(v, r, 15, part);
    vmd_bone_name(VIEW(v), i, lend_unwritten(&lent_slot, sizeof part));
    expect_part_slot("bone_name", part);
    expected_part(v, r == NULL ? NULL : r + 47, 64, part);
    vmd_bone_interpolation(VIEW(v), i, lend_unwritten(&lent_slot, sizeof part));
    expect_part_slot("bone_interpolation", part);
}

static void fetch_morph(const struct view *v, size_t i)
{
    const uint8_t *r = expected_record(v, VMD_MORPHS, i);
    uint32_t record[2] = {0};
    uint64_t part[2];
    if (r != NULL) {
        record[0] = u32_at(r + 15);
        record[1] = u32_at(r + 19);
    }
    expect_fetched("morph_frame", vmd_morph_frame(VIEW(v), i, lend_unwritten(&lent_slot, sizeof record)), r, record,
                   sizeof record);
    expected_name(v, r, 15, part);
    vmd_morph_name(VIEW(v), i, lend_unwritten(&lent_slot, sizeof part));
    expect_part_slot("morph_name", part);
}

static void fetch_camera(const struct view *v, size_t i)
{
    const uint8_t *r = expected_record(v, VMD_CAMERAS, i);
    uint32_t record[10] = {0};
    uint64_t part[2];
    size_t k;
    for (k = 0; r != NULL && k < 8; k++)
        record[k] = u32_at(r + 4 * k);
    if (r != NULL) {
        record[8] = u32_at(r + 56);
        record[9] = r[60] == 0;
    }
    expect_fetched("camera_frame", vmd_camera_frame(VIEW(v), i, lend_unwritten(&lent_slot, sizeof record)), r, record,
                   sizeof record);
    expected_part(v, r == NULL ? NULL : r + 32, 24, part);
    vmd_camera_interpolation(VIEW(v), i, lend_unwritten(&lent_slot, sizeof part));
    expect_part_slot("camera_interpolation", part);
}

static void fetch_light(const struct view *v, size_t i)
{
    const uint8_t *r = expected_record(v, VMD_LIGHTS, i);
    uint32_t record[7] = {0}, number;
    float *values = lend_unwritten(&lent_values, 6 * sizeof *values);
    size_t k;
    for (k = 0; r != NULL && k < 7; k++)
        record[k] = u32_at(r + 4 * k);
    expect_fetched("light_frame_bits", vmd_light_frame_bits(VIEW(v), i, lend_unwritten(&lent_slot, sizeof record)), r,
                   record, sizeof record);

    number = vmd_light_frame(VIEW(v), i, lend_unwritten(&lent_slot, 4), values);
    expect_fetched("light_frame", number, r, record, 4);
    if (r == NULL) {
        expect_lent_unwritten("light_frame", &lent_values);
        return;
    }
    expect_unwritten("before the light's values", lent_values.at - 64, 64);
    for (k = 0; k < 6; k++) {
        float value;
        memcpy(&value, &record[1 + k], sizeof value);
        if (isnan(value))
            expect(isnan(values[k]), "light_frame: value %zu: expected a NaN", k);
        else
            expect_bytes("light_frame", &values[k], &value, sizeof value);
    }
}

static void fetch_self_shadow(const struct view *v, size_t i)
{
    const uint8_t *r = expected_record(v, VMD_SELF_SHADOWS, i);
    uint32_t record[3] = {0};
    if (r != NULL) {
        record[0] = u32_at(r);
        record[1] = r[4];
        record[2] = u32_at(r + 5);
    }
    expect_fetched("self_shadow_frame", vmd_self_shadow_frame(VIEW(v), i, lend_unwritten(&lent_slot, sizeof record)), r,
                   record, sizeof record);
}

/* Numbers far above every count; the products with a record's size wrap, and low halves are numbers of records. */
static const size_t far_numbers[] = {
    100, 0xFFFFFFFF, 0x100000000, 0x100000001, SIZE_MAX / 111 + 1, SIZE_MAX / 23 + 1, SIZE_MAX / 21 + 1, SIZE_MAX / 9 + 1,
    0x8000000000000000, SIZE_MAX - 1, SIZE_MAX
};
enum { NEAR = 8, NUMBERS = NEAR + sizeof far_numbers / sizeof *far_numbers };

static size_t number_to_try(size_t k)
{
    return k < NEAR ? k : far_numbers[k - NEAR];
}

/* Every fetch with any opening and scratch; nothing that is only read changes. */
static void try_fetches(const uint8_t *file, size_t len, const uint32_t counts[6], const uint64_t places[6],
                        const uint64_t *scratch, size_t scratch_len)
{
    struct view v = lend_view(file, len, counts, places, scratch, scratch_len);
    size_t k, l;
    for (k = 0; k < NUMBERS; k++) {
        size_t i = number_to_try(k);
        fetch_bone(&v, i);
        fetch_morph(&v, i);
        fetch_camera(&v, i);
        fetch_light(&v, i);
        fetch_self_shadow(&v, i);
        fetch_property(&v, i);
        for (l = 0; l < NUMBERS; l++)
            fetch_state(&v, i, number_to_try(l));
    }
    expect_view(file, len, counts, places, scratch, scratch_len);
}

static void try_model_name(const uint8_t *file, size_t len)
{
    struct view v = {NULL, 0, NULL, NULL, NULL, 0};
    uint64_t part[2];
    enum edition edition;
    int header = expected_header(file, len, &edition) == VMD_OK;
    v.file = lend(&lent_file, file, len);
    v.len = len;
    expected_name(&v, header ? v.file + 30 : NULL, header ? editions[edition].model_width : 0, part);
    vmd_model_name(v.file, len, lend_unwritten(&lent_slot, sizeof part));
    expect_part_slot("model_name", part);
    expect_lent("file", &lent_file, file, len);
}

/* A file through all of the reader's calls. Fetches have no manner: they give what the lenient opening tells. */
static struct reading try_file(const uint8_t *file, size_t len)
{
    struct opening o;
    struct reading reads = try_opening(file, len, &o);
    try_model_name(file, len);
    if (reads.in[LENIENT] == VMD_OK)
        try_fetches(file, len, o.counts, o.places, o.scratch, o.n_places);
    return reads;
}

/* ---- takes of the paper, with what it says of each: in the older edition it is the same */

enum { PLAIN, FIRST_BYTES, FIRST_BYTES_A };

static const struct {
    const char *name;
    int kind;
    size_t len; /* of FIRST_BYTES: the magic and the zeros after it; of FIRST_BYTES_A: bytes 0x41; else the newer header */
    int n_counts;
    uint32_t counts[6];
    int over; /* bytes after the counts */
    struct reading reads; /* strict, lenient */
} paper_takes[] = {
    {"no bytes", FIRST_BYTES, 0, 0, {0}, 0, {{1, 1}}},
    {"29 bytes", FIRST_BYTES, 29, 0, {0}, 0, {{1, 1}}},
    {"29 bytes of 0x41", FIRST_BYTES_A, 29, 0, {0}, 0, {{1, 1}}},
    {"30 bytes of 0x41", FIRST_BYTES_A, 30, 0, {0}, 0, {{2, 2}}},
    {"49 bytes of 0x41", FIRST_BYTES_A, 49, 0, {0}, 0, {{2, 2}}},
    {"80 bytes of 0x41", FIRST_BYTES_A, 80, 0, {0}, 0, {{2, 2}}},
    {"30 bytes with the magic", FIRST_BYTES, 30, 0, {0}, 0, {{1, 1}}},
    {"49 bytes with the magic", FIRST_BYTES, 49, 0, {0}, 0, {{1, 1}}},
    {"start", PLAIN, 50, 0, {0}, 0, {{1, 1}}},
    {"start and three bytes", PLAIN, 50, 0, {0}, 3, {{1, 1}}},
    {"start,0", PLAIN, 50, 1, {0}, 0, {{0, 0}}},
    {"start,0 and one byte", PLAIN, 50, 1, {0}, 1, {{1, 1}}},
    {"start,0 and three bytes", PLAIN, 50, 1, {0}, 3, {{1, 1}}},
    {"start,1", PLAIN, 50, 1, {1}, 0, {{1, 1}}},
    {"start,1 and 110 bytes", PLAIN, 50, 1, {1}, 110, {{1, 1}}},
    {"start,1 and 111 bytes", PLAIN, 50, 1, {1}, 111, {{0, 0}}},
    {"start,0,1", PLAIN, 50, 2, {0, 1}, 0, {{1, 1}}},
    {"start,0,1 and 22 bytes", PLAIN, 50, 2, {0, 1}, 22, {{1, 1}}},
    {"start,0,1 and 23 bytes", PLAIN, 50, 2, {0, 1}, 23, {{0, 0}}},
    {"start,0,0,1", PLAIN, 50, 3, {0, 0, 1}, 0, {{17, 0}}},
    {"start,0,0,1 and 60 bytes", PLAIN, 50, 3, {0, 0, 1}, 60, {{17, 0}}},
    {"start,0,0,1 and 61 bytes", PLAIN, 50, 3, {0, 0, 1}, 61, {{0, 0}}},
    {"start,0,0,0,1", PLAIN, 50, 4, {0, 0, 0, 1}, 0, {{17, 0}}},
    {"start,0,0,0,1 and 27 bytes", PLAIN, 50, 4, {0, 0, 0, 1}, 27, {{17, 0}}},
    {"start,0,0,0,0,1", PLAIN, 50, 5, {0, 0, 0, 0, 1}, 0, {{17, 0}}},
    {"start,0,0,0,0,1 and 8 bytes", PLAIN, 50, 5, {0, 0, 0, 0, 1}, 8, {{17, 0}}},
    {"start,0,0,0,0,0,1", PLAIN, 50, 6, {0, 0, 0, 0, 0, 1}, 0, {{1, 1}}},
    {"start,0,0,0,0,0,1 and 8 bytes", PLAIN, 50, 6, {0, 0, 0, 0, 0, 1}, 8, {{1, 1}}},
    {"start,0,0,0,0,0,1 and 9 bytes", PLAIN, 50, 6, {0, 0, 0, 0, 0, 1}, 9, {{0, 0}}},
    {"start,0,0,0,0,0,1 and 10 bytes", PLAIN, 50, 6, {0, 0, 0, 0, 0, 1}, 10, {{16, 0}}},
    {"start,0,0,0,0,0,0", PLAIN, 50, 6, {0}, 0, {{0, 0}}},
    {"start,0,0,0,0,0,0 and one byte", PLAIN, 50, 6, {0}, 1, {{16, 0}}},
    {"start,0,0,0,0,0,0 and 7 bytes", PLAIN, 50, 6, {0}, 7, {{16, 0}}},
    {"largest bone count", PLAIN, 50, 1, {0xFFFFFFFF}, 111, {{1, 1}}},
    {"largest morph count", PLAIN, 50, 2, {0, 0xFFFFFFFF}, 23, {{1, 1}}},
    {"largest camera count", PLAIN, 50, 3, {0, 0, 0xFFFFFFFF}, 200, {{17, 0}}},
    {"largest light count", PLAIN, 50, 4, {0, 0, 0, 0xFFFFFFFF}, 200, {{17, 0}}},
    {"largest self-shadow count", PLAIN, 50, 5, {0, 0, 0, 0, 0xFFFFFFFF}, 200, {{17, 0}}},
    {"largest property count", PLAIN, 50, 6, {0, 0, 0, 0, 0, 0xFFFFFFFF}, 200, {{1, 1}}},
};

static void takes_of_the_paper(enum edition edition)
{
    size_t k;
    for (k = 0; k < sizeof paper_takes / sizeof *paper_takes; k++) {
        struct name none = named("");
        struct bytes b;
        int i;
        b.len = 0;
        put_header_of(&b, edition, &none, CANONICAL);
        memset(b.at + b.len, 0, 80);
        if (paper_takes[k].kind == FIRST_BYTES_A)
            memset(b.at, 0x41, 80);
        if (paper_takes[k].kind != PLAIN)
            b.len = paper_takes[k].len;
        for (i = 0; i < paper_takes[k].n_counts; i++)
            put_u32(&b, paper_takes[k].counts[i]);
        for (i = 0; i < paper_takes[k].over; i++)
            put_byte(&b, 0);
        trial("takes of the paper, %s edition: %s", editions[edition].name, paper_takes[k].name);
        expect_reading("refusal", try_file(b.at, b.len), paper_takes[k].reads);
    }
}

/* Where the places are told in words: after the count, or the file's length. Only the lenient manner empties a section. */
static void places_of_empty_sections(enum edition edition)
{
    static const uint32_t oversized[3] = {0, 0, 1};
    static const uint64_t told[EDITIONS][3] = {{54, 58, 102}, {44, 48, 92}};
    struct name none = named("");
    struct bytes b;
    uint32_t counts[6];
    uint64_t places[6], totals[3];
    size_t s;
    b.len = 0;
    put_header_of(&b, edition, &none, CANONICAL);
    put_u32s(&b, oversized, 3);
    put(&b, b.at, 40);
    trial("places of empty sections, %s edition", editions[edition].name);
    expect_number("parse_animation", vmd_parse_animation(b.at, b.len, NULL, 0, counts, places, totals), VMD_COUNT_OVERSIZED);
    expect_number("parse_animation_lenient", vmd_parse_animation_lenient(b.at, b.len, NULL, 0, counts, places, totals),
                  VMD_OK);
    for (s = 0; s < SECTIONS; s++) {
        expect_number("count", counts[s], 0);
        expect_number("place", places[s], told[edition][s < 2 ? s : 2]);
    }
    expect_number("IK states", totals[VMD_TOTAL_IK_STATES], 0);
    expect_number("smallest frame", totals[VMD_TOTAL_SMALLEST_FRAME], 0);
    expect_number("largest frame", totals[VMD_TOTAL_LARGEST_FRAME], 0);
}

/* ---- takes field by field */

static void six_sections(enum edition edition)
{
    struct take t = distinct_take(editions[edition].model_width, 5, 4, 6, 3, 4, 6);
    struct take leg = leg_take();
    struct bytes b;
    trial("six sections, field by field, %s edition", editions[edition].name);
    encode_in(&b, edition, &t, RAW);
    field_by_field(&t, b.at, b.len);
    try_file(b.at, b.len);
    trial("a leg that goes off, field by field, %s edition", editions[edition].name);
    encode_in(&b, edition, &leg, CANONICAL);
    field_by_field(&leg, b.at, b.len);
    try_file(b.at, b.len);
}

/* Each flag's byte on its own: on and off as told in words. */
static void flags(void)
{
    static const struct {
        uint8_t byte;
        uint32_t perspective, flag;
    } rows[] = {{0, 1, 0}, {1, 0, 1}, {2, 0, 1}, {128, 0, 1}, {255, 0, 1}};
    size_t k;
    for (k = 0; k < sizeof rows / sizeof *rows; k++) {
        struct take t = distinct_take(3, 0, 0, 1, 0, 0, 2);
        struct bytes b;
        uint32_t counts[6], record[10], enabled = 7;
        uint64_t places[6], totals[3], scratch[1];
        trial("flag byte %u", rows[k].byte);
        t.cameras[0].perspective = rows[k].byte;
        t.properties[1].visible = rows[k].byte;
        t.properties[1].states[0].enabled = rows[k].byte;
        encode(&b, &t, RAW);
        vmd_parse_animation(b.at, b.len, scratch, 1, counts, places, totals);
        vmd_camera_frame(b.at, b.len, counts, places, 0, record);
        expect_number("perspective", record[9], rows[k].perspective);
        vmd_property_frame(b.at, b.len, counts, places, scratch, 1, 1, record);
        expect_number("visible", record[1], rows[k].flag);
        vmd_ik_state(b.at, b.len, counts, places, scratch, 1, 1, 0, &enabled);
        expect_number("enabled", enabled, rows[k].flag);
    }
}

/* ---- the smallest and the largest frame */

/* Both are 0, however many of the counts there are, and also where a section is emptied: what stands there is no record. */
static void frames_of_no_records(void)
{
    struct take none = empty_take();
    struct bytes b;
    int section;
    for (section = 0; section < SECTIONS; section++) {
        encode(&b, &none, CANONICAL);
        b.len = 54 + 4 * (size_t)section;
        trial("no records, the last count that of section %d", section);
        try_frames(&b, alike(VMD_OK), 0, 0);
        if (section < VMD_CAMERAS || section > VMD_SELF_SHADOWS)
            continue;
        trial("no records, section %d emptied", section);
        b.at[b.len - 4] = 1;
        put_u32(&b, 7);
        put_u32(&b, 7);
        try_frames(&b, reading(VMD_COUNT_OVERSIZED, VMD_OK), 0, 0);
    }
}

/* A take's only record is both, in any section and at any frame. */
static void frames_of_one_record(void)
{
    static const uint32_t frames[] = {0, 1, 90, 0x7FFFFFFF, 0x80000000, 0xFFFFFFFE, 0xFFFFFFFF};
    size_t k;
    int section;
    for (section = 0; section < SECTIONS; section++)
        for (k = 0; k < sizeof frames / sizeof *frames; k++) {
            struct take t = one_section_take(section, 1);
            struct bytes b;
            *frame_of(&t, section, 0) = frames[k];
            encode(&b, &t, RAW);
            trial("frame %u in section %d, and no other record", frames[k], section);
            try_frames(&b, alike(VMD_OK), frames[k], frames[k]);
        }
}

/* One record among others that are all at one frame: below or above it, in any section, at any place of one to four. */
static void frames_of_many_records(void)
{
    static const uint32_t frames[] = {0, 499, 501, 0x80000000, 0xFFFFFFFF}, others = 500;
    size_t n, i, k, l;
    int section, s;
    for (n = 1; n <= 4; n++)
        for (section = 0; section < SECTIONS; section++)
            for (i = 0; i < n; i++)
                for (k = 0; k < sizeof frames / sizeof *frames; k++) {
                    struct take t = distinct_take(4, n, n, n, n, n, n);
                    struct bytes b;
                    for (s = 0; s < SECTIONS; s++)
                        for (l = 0; l < n; l++)
                            *frame_of(&t, s, l) = others;
                    *frame_of(&t, section, i) = frames[k];
                    encode(&b, &t, RAW);
                    trial("frame %u in record %zu of %zu in section %d", frames[k], i, n, section);
                    try_frames(&b, alike(VMD_OK), smaller(frames[k], others), larger(frames[k], others));
                }
}

/* ---- files that are damaged in every place */

static void cut_anywhere(enum edition edition)
{
    struct take t = distinct_take(7, 2, 3, 2, 2, 3, 4);
    struct bytes b;
    size_t n;
    encode_in(&b, edition, &t, RAW);
    for (n = 0; n <= b.len; n++) {
        trial("six sections of the %s edition cut after %zu bytes", editions[edition].name, n);
        try_file(b.at, n);
    }
    put(&b, b.at, 30);
    trial("six sections of the %s edition with 30 bytes over", editions[edition].name);
    expect_reading("refusal", try_file(b.at, b.len), reading(VMD_BYTES_OVER, VMD_OK));
}

static void any_byte_changed(enum edition edition)
{
    static const uint8_t values[] = {0, 1, 2, 0x7F, 0x80, 0xFF};
    struct take t = distinct_take(7, 2, 3, 2, 2, 3, 4);
    struct bytes b;
    struct opening o;
    size_t n, k;
    encode_in(&b, edition, &t, RAW);
    for (n = 0; n < b.len; n++)
        for (k = 0; k < sizeof values; k++) {
            uint8_t kept = b.at[n];
            struct reading reads;
            b.at[n] = values[k];
            trial("six sections of the %s edition with byte %zu made %u", editions[edition].name, n, values[k]);
            reads = try_opening(b.at, b.len, &o);
            try_model_name(b.at, b.len);
            if (n < 26 && values[k] != kept)
                expect_reading("refusal", reads, alike(VMD_MAGIC_DIFFERS));
            if (n >= 26 && n < editions[edition].sections)
                expect_reading("refusal", reads, alike(VMD_OK));
            b.at[n] = kept;
        }
}

/* Fetches, names and the model name of files that the strict manner refuses are what they are of any file. */
static void try_damaged(const struct sample *d)
{
    trial("%s", d->name);
    expect_reading("refusal", try_file(d->file.at, d->file.len), d->reads);
}

/* ---- openings and scratch of another file */

static void openings_of_another_file(void)
{
    struct take longer = distinct_take(5, 4, 4, 4, 4, 4, 5), shorter = distinct_take(5, 1, 2, 1, 1, 2, 2);
    struct bytes l, s;
    struct opening of_longer, of_shorter;
    size_t n;
    encode(&l, &longer, RAW);
    encode(&s, &shorter, RAW);
    expected_opening(STRICT, l.at, l.len, &of_longer);
    expected_opening(STRICT, s.at, s.len, &of_shorter);
    trial("a longer file with a shorter one's opening");
    try_fetches(l.at, l.len, of_shorter.counts, of_shorter.places, of_shorter.scratch, of_shorter.n_places);
    trial("a shorter file with a longer one's opening");
    try_fetches(s.at, s.len, of_longer.counts, of_longer.places, of_longer.scratch, of_longer.n_places);
    trial("a file with its opening and another one's scratch");
    try_fetches(l.at, l.len, of_longer.counts, of_longer.places, of_shorter.scratch, of_shorter.n_places);
    trial("a file with its scratch and the opening of one with fewer property frames");
    try_fetches(l.at, l.len, of_shorter.counts, of_shorter.places, of_longer.scratch, of_longer.n_places);
    trial("a scratch of no places for %zu property frames", of_longer.n_frames);
    try_fetches(l.at, l.len, of_longer.counts, of_longer.places, of_longer.scratch, 0);
    for (n = 0; n < l.len; n++) {
        trial("the first %zu bytes of a file with its opening", n);
        try_fetches(l.at, n, of_longer.counts, of_longer.places, of_longer.scratch, of_longer.n_places);
    }
}

/* Places anywhere: at the ends of the file, and where the sum with a record's distance would wrap into the file. */
static void places_anywhere(void)
{
    struct take t = distinct_take(5, 3, 3, 3, 3, 3, 4);
    struct bytes b;
    struct opening o;
    uint64_t near_end[40];
    size_t n = 0, k, s;
    encode(&b, &t, RAW);
    expected_opening(STRICT, b.at, b.len, &o);
    near_end[n++] = 0;
    near_end[n++] = b.len;
    near_end[n++] = b.len + 1;
    near_end[n++] = b.len - 8;
    near_end[n++] = b.len - 9;
    near_end[n++] = b.len - 28;
    near_end[n++] = b.len - 111;
    near_end[n++] = UINT64_MAX;
    near_end[n++] = UINT64_MAX - 110;
    near_end[n++] = 0x8000000000000000;
    near_end[n++] = 0x100000000 + o.places[0];
    for (s = 0; s < SECTIONS; s++) {
        near_end[n++] = 0 - (uint64_t)record_sizes[s];         /* record 0 ends where the sum wraps to 0 */
        near_end[n++] = o.places[s] - 2 * record_sizes[s];     /* a place inside, before the section */
        near_end[n++] = 50 - (uint64_t)record_sizes[s];        /* wraps for some: record 1 would lie at 50 */
        near_end[n++] = 60 - 3 * (uint64_t)record_sizes[s];
    }
    for (k = 0; k < n; k++) {
        struct opening moved = o;
        for (s = 0; s < SECTIONS; s++) {
            moved.places[s] = near_end[k];
            moved.counts[s] = 0xFFFFFFFF;
        }
        moved.scratch[0] = near_end[k];
        trial("all places %llu, all counts 4,294,967,295", (unsigned long long)near_end[k]);
        try_fetches(b.at, b.len, moved.counts, moved.places, moved.scratch, moved.n_places);
    }
}

/* More records of each kind than one byte can count: every one is fetched. */
static void many_records(enum edition edition)
{
    struct take t = distinct_take(10, 5, 6, 5, 6, 7, 8);
    static struct bytes b;
    struct opening o;
    struct view v;
    size_t i, j;
    encode_times_in(&b, edition, &t, 60, RAW);
    trial("60 times the records of a take, %s edition", editions[edition].name);
    expect_reading("refusal", try_opening(b.at, b.len, &o), alike(VMD_OK));
    expect_number("bones", o.counts[0], 300);
    v = lend_view(b.at, b.len, o.counts, o.places, o.scratch, o.n_places);
    for (i = 0; i <= 480; i++) {
        fetch_bone(&v, i);
        fetch_morph(&v, i);
        fetch_camera(&v, i);
        fetch_light(&v, i);
        fetch_self_shadow(&v, i);
        fetch_property(&v, i);
        for (j = 0; j < 5; j++)
            fetch_state(&v, i, j);
    }
    expect_view(b.at, b.len, o.counts, o.places, o.scratch, o.n_places);
}

/* ---- the older edition */

/* The older magic and zeros, so many bytes of them in all. */
static void older_lengths(void)
{
    static const struct {
        size_t len;
        uint32_t number;
    } rows[] = { /* where the strict number is 16, the lenient one is 0 */
        {0, 1}, {25, 1}, {26, 1}, {29, 1}, {30, 1}, {39, 1}, {40, 1}, {43, 1}, {44, 0}, {45, 1}, {47, 1}, {48, 0}, {50, 1},
        {53, 1}, {54, 1}, {64, 0}, {65, 16}, {104, 16},
    };
    struct name none = named("");
    struct bytes b;
    size_t k;
    b.len = 0;
    put_header_of(&b, OLDER, &none, CANONICAL);
    memset(b.at + b.len, 0, 64);
    for (k = 0; k < sizeof rows / sizeof *rows; k++) {
        trial("the older magic and zeros, %zu bytes", rows[k].len);
        expect_reading("refusal", try_file(b.at, rows[k].len),
                       reading(rows[k].number, rows[k].number == VMD_BYTES_OVER ? VMD_OK : rows[k].number));
    }
}

/* Only the magics themselves are magics, no mixture of their bytes. */
static void mixed_magics(void)
{
    struct take t = distinct_take(9, 1, 1, 1, 1, 1, 2);
    struct bytes b;
    unsigned mixture, i;
    for (mixture = 0; mixture < 16; mixture++) {
        struct reading reads;
        encode(&b, &t, RAW);
        for (i = 0; i < 4; i++)
            if (mixture >> i & 1)
                b.at[21 + i] = (uint8_t)editions[OLDER].magic[21 + i];
        trial("a magic that ends with '%.4s'", (const char *)b.at + 21);
        reads = try_file(b.at, b.len);
        if (mixture > 0 && mixture < 15)
            expect_reading("refusal", reads, alike(VMD_MAGIC_DIFFERS));
    }
}

static void expect_model_name(const struct bytes *b, size_t len, uint64_t place, uint64_t name_len)
{
    uint64_t part[2] = {7, 7};
    vmd_model_name(lend(&lent_file, b->at, len), len, part);
    expect_number("model name's place", part[0], place);
    expect_number("model name's length", part[1], name_len);
}

/* One of ten bytes ends before the bone count, which does not begin with a zero here. With 40 bytes the name is there. */
static void older_model_names(void)
{
    size_t n;
    int form;
    for (n = 0; n <= 10; n++)
        for (form = CANONICAL; form <= RAW; form++) {
            struct take t = distinct_take(n, 3, 0, 0, 0, 0, 0);
            struct bytes b;
            encode_in(&b, OLDER, &t, (enum form)form);
            trial("an older model name of %zu bytes, form %d", n, form);
            expect_reading("refusal", try_file(b.at, b.len), alike(VMD_OK));
            expect_number("the test's own bone count", b.at[40], 3);
            expect_model_name(&b, b.len, n > 0 ? 30 : 0, n);
            expect_model_name(&b, 44, n > 0 ? 30 : 0, n);
            expect_model_name(&b, 40, n > 0 ? 30 : 0, n);
            expect_model_name(&b, 39, 0, 0);
            expect_model_name(&b, 30, 0, 0);
        }
}

/* An older file opens as its widened file does, in each manner; places and scratch are 10 less. */
static void try_widened(const struct bytes *older, struct opening *o)
{
    struct bytes newer;
    struct reading reads;
    enum manner m;
    size_t s, i;
    widen(&newer, older);
    reads = try_opening(newer.at, newer.len, o);
    for (s = 0; s < SECTIONS; s++)
        o->places[s] -= NARROWER;
    for (i = 0; i < o->n_places; i++)
        o->scratch[i] -= NARROWER;
    for (m = STRICT; m < MANNERS; m++) {
        open_with(m, older->at, older->len, o->n_places, reads.in[m], o);
        open_with(m, older->at, older->len, o->n_places + 2, reads.in[m], o);
    }
    if (reads.in[LENIENT] == VMD_OK)
        try_fetches(older->at, older->len, o->counts, o->places, o->scratch, o->n_places);
}

/*
 * Cut anywhere after the header, or with bytes over: sections are whole, emptied and missing. And of more records than one
 * byte can count.
 */
static void older_places(void)
{
    struct take t = distinct_take(10, 2, 3, 2, 2, 3, 4);
    static struct bytes b;
    static struct opening o;
    size_t n;
    encode_in(&b, OLDER, &t, RAW);
    put(&b, b.at, 10);
    for (n = b.len; n >= 40; n--) {
        b.len = n;
        trial("an older file cut after %zu bytes, widened", n);
        try_widened(&b, &o);
    }
    encode_times_in(&b, OLDER, &t, 60, RAW);
    trial("60 times the records of an older take, widened");
    try_widened(&b, &o);
    expect_number("property frames", o.n_frames, 240);
}

/* The opening of a file of the other edition is another file's. */
static void openings_of_the_other_edition(void)
{
    struct take t = distinct_take(10, 3, 3, 3, 3, 3, 4);
    struct bytes older, newer;
    struct opening of_older, of_newer;
    encode_in(&older, OLDER, &t, RAW);
    widen(&newer, &older);
    expected_opening(STRICT, older.at, older.len, &of_older);
    expected_opening(STRICT, newer.at, newer.len, &of_newer);
    trial("an older file with its widened file's opening");
    try_fetches(older.at, older.len, of_newer.counts, of_newer.places, of_newer.scratch, of_newer.n_places);
    trial("a widened file with the older one's opening");
    try_fetches(newer.at, newer.len, of_older.counts, of_older.places, of_older.scratch, of_older.n_places);
}

/* A slice of no elements is not looked at: its pointer may be null, or lead where nothing can be read. */
static void slices_of_no_elements(void)
{
    struct take t = distinct_take(4, 1, 1, 1, 1, 1, 0);
    struct bytes b;
    uint32_t counts[6], record[8] = {1, 2, 3};
    uint64_t places[6], totals[3], part[2] = {7, 7};
    uint8_t *closed = end_of(&lent_file);
    enum manner m;
    trial("slices of no elements");
    encode(&b, &t, RAW);
    for (m = STRICT; m < MANNERS; m++) {
        expect_number("parse_animation", parse_in(m, b.at, b.len, (uint64_t *)(void *)closed, 0, counts, places, totals),
                      VMD_OK);
        expect_number("parse_animation", parse_in(m, closed, 0, NULL, 0, counts, places, totals), VMD_ENDS_EARLY);
        expect_number("parse_animation", parse_in(m, NULL, 0, NULL, 0, counts, places, totals), VMD_ENDS_EARLY);
    }
    expect_number("bone_frame", vmd_bone_frame(closed, 0, counts, places, 0, record), VMD_OUTSIDE);
    counts[5] = 1;
    expect_number("property_frame", vmd_property_frame(b.at, b.len, counts, places, NULL, 0, 0, record), VMD_OUTSIDE);
    expect_number("property_frame_at", vmd_property_frame_at(closed, 0, 0, record, &part[0]), VMD_OUTSIDE);
    expect_number("property_frame_at", vmd_property_frame_at(NULL, 0, 0, record, &part[0]), VMD_OUTSIDE);
    expect_number("slot", record[0] * 100 + record[1] * 10 + record[2], 123);
    expect_number("next", part[0], 7);
    vmd_model_name(closed, 0, part);
    expect_number("model name", part[0] + part[1], 0);
}

int main(void)
{
    enum edition edition;
    for (edition = NEWER; edition < EDITIONS; edition++) {
        takes_of_the_paper(edition);
        places_of_empty_sections(edition);
        six_sections(edition);
        cut_anywhere(edition);
        any_byte_changed(edition);
        each_damaged(edition, RAW, try_damaged);
        many_records(edition);
    }
    flags();
    frames_of_no_records();
    frames_of_one_record();
    frames_of_many_records();
    openings_of_another_file();
    places_anywhere();
    older_lengths();
    mixed_magics();
    older_model_names();
    older_places();
    openings_of_the_other_edition();
    slices_of_no_elements();
    return finished("reader");
}
