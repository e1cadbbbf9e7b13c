/*
 * Excerpts, through the C interface, in both manners: every byte of every output and every slot, in refusals too, against
 * excerpts of the test's own that follow request j)'s words.
 *
 * Not tried: 13 where no 64-bit length could hold the file.
 */
#include "check.h"
#include "damaged.h"
#include "excerpt.h"
#include "expect.h"
#include "manner.h"
#include "open.h"
#include "random.h"
#include "readback.h"
#include "save.h"
#include "take.h"
#include "vmd.h"

static struct bytes file, expected;

/* From the smaller one to the larger. */
static struct range between(uint32_t a, uint32_t b)
{
    return a < b ? range(a, b) : range(b, a);
}

/* In each edition that can hold its model name. The newer one is last, and stays in file. */
static void try_take(const char *name, const struct take *t, enum form form, struct range r)
{
    int edition;
    for (edition = OLDER; edition >= NEWER; edition--) {
        if (t->model.len > editions[edition].model_width)
            continue;
        trial("%s, %s edition, from %u to %u", name, editions[edition].name, (unsigned)r.first, (unsigned)r.last);
        encode_in(&file, (enum edition)edition, t, form);
        try_excerpt_told(&file, r, alike(VMD_OK), t);
    }
}

/* Of a file of which nothing is told but its bytes. */
static void try_bytes(const struct bytes *f, struct range r)
{
    static struct bytes exported;
    static struct opening o;
    struct reading reads = expected_reading(f->at, f->len, &o);
    if (reads.in[LENIENT] != VMD_OK) {
        try_excerpt_refused(f, r, reads);
        return;
    }
    put_excerpt(&exported, f, &o, whole_range);
    put_excerpt(&expected, f, &o, r);
    try_excerpt(f, r, reads, &expected, exported.len);
}

/* ---- what request j) says, told in bytes and numbers */

/* Self-shadows of frames 10, 20 and 30, properties of 15 and 31, with an IK state that is off; from 15 to 30. */
static void told_in_bytes(void)
{
    static const char whole[] =
        "Vocaloid Motion Data 0002\0wxyz"
        "name\0after the zero!"
        "\0\0\0\0" "\0\0\0\0" "\0\0\0\0" "\0\0\0\0"
        "\3\0\0\0" "\x0A\0\0\0\1ABCD" "\x14\0\0\0\xFF" "EFGH" "\x1E\0\0\0\2IJKL"
        "\2\0\0\0" "\x0F\0\0\0\2\1\0\0\0" "leg\0and bytes after!\0" "\x1F\0\0\0\1\1\0\0\0" "twenty bytes of name\1";
    static const char piece[] =
        "Vocaloid Motion Data 0002\0\0\0\0\0"
        "name\0\0\0\0\0\0\0\0\0\0\0\0\0\0\0\0"
        "\0\0\0\0" "\0\0\0\0" "\0\0\0\0" "\0\0\0\0"
        "\2\0\0\0" "\5\0\0\0\xFF" "EFGH" "\x0F\0\0\0\2IJKL"
        "\1\0\0\0" "\0\0\0\0\1\1\0\0\0" "leg\0\0\0\0\0\0\0\0\0\0\0\0\0\0\0\0\0\0";
    file.len = expected.len = 0;
    put(&file, whole, sizeof whole - 1);
    put(&expected, piece, sizeof piece - 1);
    trial("an excerpt told in bytes");
    expect_number("length", file.len, 74 + 3 * 9 + 2 * (9 + 21));
    expect_number("the excerpt's length", expected.len, 74 + 2 * 9 + 9 + 21);
    try_excerpt(&file, range(15, 30), alike(VMD_OK), &expected, file.len);
}

/* Which records stay and what their frames become, in each section by itself. */
static void frames_told(void)
{
    static const struct {
        struct range range;
        size_t n;
        uint32_t frames[8];
        size_t kept, order[8];
        uint32_t written[8];
    } rows[] = {
        {{0, UINT32_MAX}, 0, {0}, 0, {0}, {0}},
        {{5, 5}, 1, {5}, 1, {0}, {0}},
        {{6, 6}, 1, {5}, 0, {0}, {0}},
        {{4, 4}, 1, {5}, 0, {0}, {0}},
        {{0, 0}, 1, {0}, 1, {0}, {0}},
        {{UINT32_MAX, UINT32_MAX}, 1, {UINT32_MAX}, 1, {0}, {0}},
        {{UINT32_MAX, UINT32_MAX}, 3, {UINT32_MAX - 1, UINT32_MAX, 0}, 1, {1}, {0}},
        {{0, 0}, 4, {1, 0, UINT32_MAX, 0}, 2, {1, 3}, {0, 0}},
        {{0, UINT32_MAX}, 2, {UINT32_MAX, 0}, 2, {0, 1}, {UINT32_MAX, 0}},
        {{1, UINT32_MAX}, 2, {0, UINT32_MAX}, 1, {1}, {UINT32_MAX - 1}},
        {{0, UINT32_MAX - 1}, 2, {0, UINT32_MAX}, 1, {0}, {0}},
        {{UINT32_MAX - 1, UINT32_MAX}, 4, {UINT32_MAX, UINT32_MAX - 2, UINT32_MAX - 1, 0}, 2, {0, 2}, {1, 0}},
        {{4, 9}, 7, {5, 3, 9, 4, 5, 10, 0}, 4, {0, 2, 3, 4}, {1, 5, 0, 1}},
        {{101, 200}, 8, {99, 100, 101, 102, 199, 200, 201, 202}, 4, {2, 3, 4, 5}, {0, 1, 98, 99}},
        {{101, 200}, 8, {200, 99, 199, 100, 102, 201, 101, 202}, 4, {0, 2, 4, 6}, {99, 98, 1, 0}},
        {{2, 4}, 6, {6, 5, 4, 3, 2, 1}, 3, {2, 3, 4}, {2, 1, 0}},
        {{8, 9}, 5, {8, 8, 8, 8, 8}, 5, {0, 1, 2, 3, 4}, {0, 0, 0, 0, 0}},
        {{3, 7}, 5, {8, 8, 2, 2, 8}, 0, {0}, {0}},
        {{1, UINT32_MAX}, 4, {0x100, 0x00010000, 0x01000000, 1}, 4, {0, 1, 2, 3}, {0xFF, 0xFFFF, 0x00FFFFFF, 0}},
        {{0x7FFFFFFF, 0x80000000}, 4, {0x80000001, 0x7FFFFFFF, 0x80000000, 0x7FFFFFFE}, 2, {1, 2}, {0, 1}},
        {{0x80000000, UINT32_MAX}, 3, {0x80000000, 0, 0x7FFFFFFF}, 1, {0}, {0}},
        {{0, 0x7FFFFFFF}, 3, {0x80000000, 0, 0x7FFFFFFF}, 2, {1, 2}, {0, 0x7FFFFFFF}},
        {{0x0100, 0x0200}, 6, {0x0101, 0x00FF, 0x0201, 0x01FF, 0x0200, 0x00010180}, 3, {0, 3, 4}, {1, 0xFF, 0x0100}},
        {{0x01020304, 0x01020304}, 4, {0x04030201, 0x01020304, 0x01020305, 0x01020303}, 1, {1}, {0}},
    };
    static struct bytes told_bytes;
    size_t k, i;
    int s;
    for (k = 0; k < sizeof rows / sizeof *rows; k++)
        for (s = 0; s < SECTIONS; s++) {
            struct take t = one_section_take(s, rows[k].n), told = t, e;
            char name[64];
            for (i = 0; i < rows[k].n; i++)
                *frame_of(&t, s, i) = rows[k].frames[i];
            for (i = 0; i < rows[k].kept; i++) {
                copy_record(&told, i, &t, s, rows[k].order[i]);
                *frame_of(&told, s, i) = rows[k].written[i];
            }
            told.counts[s] = rows[k].kept;
            e = excerpt_of(&t, rows[k].range);
            snprintf(name, sizeof name, "frames of row %zu in section %d", k, s);
            trial("%s", name);
            encode(&told_bytes, &told, CANONICAL);
            encode(&expected, &e, CANONICAL);
            expect_number("the test's own length", expected.len, told_bytes.len);
            expect_bytes("the test's own excerpt", expected.at, told_bytes.at, told_bytes.len);
            try_take(name, &t, RAW, rows[k].range);
        }
}

/* Section s has the frames from 100 (s + 1) on: only its records stay, or those of the sections before it, or after it. */
static void sections_told(void)
{
    enum { OWN, BEFORE, AFTER, WAYS };
    static const uint32_t frames[3] = {99, 0, 50};
    struct take t = distinct_take(4, 3, 3, 3, 3, 3, 3), e;
    size_t i;
    int s, k, way;
    for (s = 0; s < SECTIONS; s++)
        for (i = 0; i < 3; i++)
            *frame_of(&t, s, i) = 100 * (uint32_t)(s + 1) + frames[i];
    for (s = 0; s < SECTIONS; s++)
        for (way = OWN; way < WAYS; way++) {
            uint32_t from = 100 * (uint32_t)(s + 1);
            struct range r = way == OWN ? range(from, from + 99) : way == BEFORE ? range(0, from - 1) : range(from + 100, 1000);
            try_take("a section's own frames", &t, RAW, r);
            e = excerpt_of(&t, r);
            for (k = 0; k < SECTIONS; k++)
                expect_number("the test's own count", e.counts[k],
                              3 * (size_t)(way == OWN ? k == s : way == BEFORE ? k < s : k > s));
        }
}

/* IK states are those of the frames that stay, in number, name and flag; those of others go with their frames. */
static void properties_told(enum manner m)
{
    static const uint32_t frames[5] = {9, 3, 9, 4, 10};
    static const size_t states[5] = {3, 4, 0, 1, 2};
    struct take t = distinct_take(3, 0, 0, 0, 0, 0, 5);
    uint8_t out[74 + 3 * 9 + 4 * 21];
    uint64_t len = 0;
    size_t i, j;
    for (i = 0; i < 5; i++) {
        t.properties[i].frame = frames[i];
        t.properties[i].n_states = states[i];
        t.properties[i].visible = i != 2;
        for (j = 0; j < states[i]; j++) {
            t.properties[i].states[j].name = numbered((uint32_t)(10 * i + j), 20, 0);
            t.properties[i].states[j].enabled = j == 1;
        }
    }
    try_take("property frames told in numbers", &t, RAW, range(4, 9));
    expect_number("excerpt", excerpt_in(m, file.at, file.len, 4, 9, out, sizeof out, &len), VMD_OK);
    expect_number("written", len, sizeof out);
    expect_number("property count", u32_at(out + 70), 3);
    expect_number("first frame", u32_at(out + 74), 5);
    expect_number("visible", out[78], 1);
    expect_number("its IK states", u32_at(out + 79), 3);
    for (j = 0; j < 3; j++) {
        expect_bytes("the name", out + 83 + 21 * j, t.properties[0].states[j].name.at, 20);
        expect_number("enabled", out[83 + 21 * j + 20], j == 1);
    }
    expect_number("second frame", u32_at(out + 146), 5);
    expect_number("visible", out[150], 0);
    expect_number("its IK states", u32_at(out + 151), 0);
    expect_number("third frame", u32_at(out + 155), 0);
    expect_number("its IK states", u32_at(out + 160), 1);
    expect_bytes("the name", out + 164, t.properties[3].states[0].name.at, 20);
    expect_number("enabled", out[184], 0);
}

/* The leg's frames are 0, 90 and 120, with 2, 3 and 1 states; it is off at 90. */
static void legs_stay_off(enum manner m)
{
    static const struct {
        struct range range;
        uint32_t frames, states, off; /* how many stay, and how many of the states are off */
        uint32_t first;               /* the frame that the first of them is given */
    } rows[] = {
        {{0, 0xFFFFFFFF}, 3, 6, 2, 0}, {{0, 120}, 3, 6, 2, 0}, {{0, 119}, 2, 5, 2, 0},  {{1, 120}, 2, 4, 2, 89},
        {{90, 90}, 1, 3, 2, 0},        {{89, 91}, 1, 3, 2, 1}, {{90, 120}, 2, 4, 2, 0}, {{91, 120}, 1, 1, 0, 29},
        {{0, 89}, 1, 2, 0, 0},         {{1, 89}, 0, 0, 0, 0},  {{121, 200}, 0, 0, 0, 0},
    };
    struct take leg = leg_take();
    size_t k;
    for (k = 0; k < sizeof rows / sizeof *rows; k++) {
        uint32_t counts[6], record[3] = {0}, enabled = 1, off = 0, i, j;
        uint64_t places[6], totals[3], scratch[1], len = 0;
        uint8_t out[74 + 3 * 9 + 6 * 21];
        try_take("a leg that goes off", &leg, RAW, rows[k].range);
        expect_number("excerpt", excerpt_in(m, file.at, file.len, rows[k].range.first, rows[k].range.last, out, sizeof out,
                                            &len), VMD_OK);
        expect_number("written", len, 74 + 9 * rows[k].frames + 21 * rows[k].states);
        expect_number("parse_animation", vmd_parse_animation(out, len, scratch, 1, counts, places, totals), VMD_OK);
        expect_number("property frames", counts[VMD_PROPERTIES], rows[k].frames);
        expect_number("IK states", totals[VMD_TOTAL_IK_STATES], rows[k].states);
        for (i = 0; i < rows[k].frames; i++) {
            expect_number("property", vmd_property_frame(out, len, counts, places, scratch, 1, i, record), VMD_OK);
            if (i == 0)
                expect_number("the first one's frame", record[0], rows[k].first);
            for (j = 0; j < record[2]; j++) {
                expect_number("IK state", vmd_ik_state(out, len, counts, places, scratch, 1, i, j, &enabled), VMD_OK);
                off += enabled == 0;
            }
        }
        expect_number("IK states that are off", off, rows[k].off);
    }
}

/* Where no record stays the file has 74 bytes, and the model name. */
static void nothing_stays(enum manner m)
{
    static const uint8_t zeros[24];
    size_t n, records;
    for (n = 0; n <= 20; n++)
        for (records = 0; records < 3; records += 2) {
            struct take t = crowded_take(n, records); /* of frames 6 and 7 */
            uint8_t out[74];
            uint64_t len = 0;
            if (records == 0)
                empty_from(&t, VMD_BONES);
            try_take("nothing stays", &t, RAW, range(8, 0xFFFFFFFF));
            try_take("nothing stays", &t, RAW, range(0, 5));
            expect_number("excerpt", excerpt_in(m, file.at, file.len, 8, 8, out, 74, &len), VMD_OK);
            expect_number("written", len, 74);
            expect_bytes("magic", out, "Vocaloid Motion Data 0002\0\0\0\0", 30);
            expect_bytes("model name", out + 30, t.model.at, 20);
            expect_bytes("counts", out + 50, zeros, 24);
        }
}

/* Takes whose frames are what they are, from one record's frame to another's. */
static void other_takes(void)
{
    struct take t;
    size_t from;
    int s;
    for (s = 0; s < SECTIONS; s++) {
        t = one_section_take(s, MOST);
        try_take("one section", &t, RAW, between(*frame_of(&t, s, 3), *frame_of(&t, s, 8)));
        try_take("one section", &t, CANONICAL, range(*frame_of(&t, s, 5), *frame_of(&t, s, 5)));
        try_take("one section", &t, RAW, whole_range);
    }
    for (from = 0; from < ODD; from++) {
        t = odd_floats_take(from);
        try_take("odd floats", &t, RAW, range(t.lights[1].frame, 0xFFFFFFFF));
        try_take("odd floats", &t, RAW, range(0, t.lights[1].frame));
    }
    t = distinct_take(10, MOST, MOST, MOST, MOST, MOST, MOST_PROPERTIES);
    try_take("six sections", &t, RAW, range(0x40000000, 0xC0000000));
    try_take("six sections", &t, RAW, whole_range);
}

/* Outputs of every length, up to more than the export has. */
static void every_length(enum manner m)
{
    struct take t = crowded_take(3, 4), e;
    size_t len, exported = canonical_size(&t);
    e = excerpt_of(&t, range(7, 7));
    encode(&expected, &e, CANONICAL);
    encode(&file, &t, RAW);
    for (len = 0; len <= exported + 3; len++) {
        trial("an output of %zu bytes for %zu", len, expected.len);
        excerpt_into(m, &file, range(7, 7), len < expected.len ? VMD_OUTPUT_TOO_SHORT : VMD_OK, &expected, len);
    }
}

/* ---- refusals: 18, then reading, then 13 */

static const struct range above[] = {
    {1, 0}, {2, 1}, {8, 7}, {256, 255}, {0x80000000, 0x7FFFFFFF}, {0xFFFFFFFF, 0}, {0xFFFFFFFF, 0xFFFFFFFE},
    {0x01000000, 0x00FFFFFF}, {0x80000000, 0}, {0x00010000, 0x00000002},
};
enum { ABOVE = sizeof above / sizeof *above };

/* Whatever the file is: of each answer, of no bytes, of any bytes. */
static void first_above_last(enum edition edition)
{
    static struct sample files[ANSWERS];
    struct take none = distinct_take(5, 0, 0, 0, 0, 0, 0);
    size_t k, n;
    int a;
    make_each_answer(edition, files);
    for (k = 0; k < ABOVE; k++) {
        for (a = 0; a < ANSWERS; a++) {
            trial("from %u to %u, file %d, %s edition", (unsigned)above[k].first, (unsigned)above[k].last, a,
                  editions[edition].name);
            try_excerpt_refused(&files[a].file, above[k], alike(VMD_FIRST_ABOVE_LAST));
        }
        trial("from %u to %u, no records", (unsigned)above[k].first, (unsigned)above[k].last);
        encode_in(&file, edition, &none, RAW);
        try_excerpt_refused(&file, above[k], alike(VMD_FIRST_ABOVE_LAST));
        for (n = 0; n < 32; n++) {
            trial("from %u to %u, %zu bytes", (unsigned)above[k].first, (unsigned)above[k].last, n);
            file.len = n;
            memset(file.at, 0x41, n);
            try_excerpt_refused(&file, above[k], alike(VMD_FIRST_ABOVE_LAST));
        }
    }
}

/* "[..] tested before the file is read": it is on a page that cannot be read. */
static void file_unread(enum manner m)
{
    static struct fence unread;
    size_t k;
    for (k = 0; k < ABOVE; k++) {
        uint64_t *slot = lend_unwritten(&lent_written, sizeof *slot);
        uint8_t *out = lend_unwritten(&lent_out, 100);
        struct range r = above[k];
        trial("from %u to %u, a file that cannot be read", (unsigned)r.first, (unsigned)r.last);
        expect_number("excerpt_size", excerpt_size_in(m, end_of(&unread), 65536, r.first, r.last, slot),
                      VMD_FIRST_ABOVE_LAST);
        expect_number("excerpt", excerpt_in(m, end_of(&unread), 65536, r.first, r.last, out, 100, slot),
                      VMD_FIRST_ABOVE_LAST);
        expect_lent_unwritten("output", &lent_out);
        expect_lent_unwritten("slot", &lent_written);
    }
}

/* A file of each answer, and the header cut. */
static void refused(enum edition edition)
{
    static struct sample files[ANSWERS];
    static const struct range ranges[] = {{0, 0xFFFFFFFF}, {7, 7}, {0, 6}, {7, 0xFFFFFFFF}, {9, 20}, {0, 0}};
    size_t k, n;
    int a;
    make_each_answer(edition, files);
    for (k = 0; k < sizeof ranges / sizeof *ranges; k++) {
        for (a = 0; a < ANSWERS; a++) {
            trial("file %d of the %s edition, from %u to %u", a, editions[edition].name, (unsigned)ranges[k].first,
                  (unsigned)ranges[k].last);
            try_excerpt_told(&files[a].file, ranges[k], files[a].reads, &files[a].means);
        }
        for (n = 0; n < MAGIC_FIELD; n++) {
            trial("%zu bytes of the %s edition", n, editions[edition].name);
            file = files[GOOD].file;
            file.len = n;
            try_excerpt_refused(&file, ranges[k], alike(VMD_ENDS_EARLY));
        }
    }
}

static void cut_anywhere(enum edition edition)
{
    static struct opening o;
    struct take t = crowded_take(9, 4), left;
    size_t n;
    encode_in(&file, edition, &t, RAW);
    for (n = file.len; n-- > 0;) {
        struct reading reads;
        trial("a file of the %s edition cut after %zu bytes", editions[edition].name, n);
        file.len = n;
        reads = expected_reading(file.at, n, &o);
        left = left_of(&t, &o);
        try_excerpt_told(&file, range(7, 7), reads, &left);
    }
}

/* ---- any takes, from any frame to any other */

/* Around one another, and around the numbers at which another byte or the sign would change. */
static uint32_t any_frame(size_t frames)
{
    static const uint32_t few[] = {
        4, 0, 0xFFFFFFFF, 5, 6, 3, 0x7FFFFFFF, 0x80000000, 255, 256, 0x00010000, 0x0000FFFF, 0x01000000, 0xFFFFFFFE
    };
    return random_below(10) ? few[random_below(smaller(frames, sizeof few / sizeof *few))] : (uint32_t)random_u64();
}

static void any_states(struct property *r)
{
    size_t j;
    r->n_states = random_below(3) ? random_below(MOST_STATES + 1) : 0;
    for (j = 0; j < r->n_states; j++) {
        r->states[j].name = next_name(random_below(21));
        r->states[j].enabled = (uint8_t)random_below(3);
    }
}

/* At most so many records in each section. */
static struct take any_take(size_t most)
{
    size_t frames = 1 + random_below(14), model = random_below(4) ? random_below(11) : random_below(2) * 20, n[SECTIONS], i;
    struct take t;
    int s;
    for (s = 0; s < SECTIONS; s++)
        n[s] = random_below(4) ? random_below(most + 1) : random_below(3);
    if (most == MOST && random_below(8) == 0)
        n[VMD_PROPERTIES] = random_below(MOST_PROPERTIES + 1);
    t = distinct_take(random_below(4) ? model : 0, n[0], n[1], n[2], n[3], n[4], n[5]);
    for (s = 0; s < SECTIONS; s++)
        for (i = 0; i < n[s]; i++)
            *frame_of(&t, s, i) = any_frame(frames);
    for (i = 0; i < n[VMD_PROPERTIES]; i++)
        any_states(&t.properties[i]);
    return t;
}

/* A record's frame, or one beside it; an end of the range; any. */
static uint32_t any_end(struct take *t)
{
    int s = (int)random_below(SECTIONS);
    switch (random_below(8)) {
    case 0: return 0;
    case 1: return 0xFFFFFFFF;
    case 2: return any_frame(14);
    default:
        if (t->counts[s] == 0)
            return (uint32_t)random_below(8);
        return *frame_of(t, s, random_below(t->counts[s])) + (uint32_t)random_below(3) - 1;
    }
}

static struct range any_range(struct take *t)
{
    uint32_t a = any_end(t);
    return between(a, any_end(t));
}

static void any_takes(void)
{
    size_t i;
    for (i = 0; i < 2000; i++) {
        struct take t = any_take(MOST);
        struct range r = any_range(&t);
        char name[32];
        snprintf(name, sizeof name, "random take %zu", i);
        try_take(name, &t, i % 4 ? RAW : CANONICAL, r);
        if (r.first < r.last)
            try_take(name, &t, RAW, range(r.last, r.first));
    }
}

/* ---- damaged files */

static size_t tried[18]; /* files by their strict number */

/* From the first frame to the last, a frame of the crowded takes alone, any; and from a frame to a smaller one. */
static void try_sample(const struct sample *s)
{
    struct take means = s->means;
    struct range ranges[4];
    size_t k;
    ranges[0] = whole_range;
    ranges[1] = range(7, 7);
    ranges[2] = any_range(&means);
    ranges[3] = above[random_below(ABOVE)];
    tried[s->reads.in[STRICT]]++;
    for (k = 0; k < 4; k++) {
        trial("%s, from %u to %u", s->name, (unsigned)ranges[k].first, (unsigned)ranges[k].last);
        try_excerpt_told(&s->file, ranges[k], s->reads, &means);
    }
}

static void damaged_files(void)
{
    enum edition edition;
    for (edition = NEWER; edition < EDITIONS; edition++)
        each_damaged(edition, RAW, try_sample);
    expect_each_number(tried);
}

static void any_byte_changed(enum edition edition)
{
    static const uint8_t values[] = {0, 1, 2, 0x7F, 0x80, 0xFF};
    static struct bytes b;
    struct take t = distinct_take(4, 1, 1, 1, 1, 1, 2);
    size_t n, k;
    int s;
    for (s = 0; s < SECTIONS; s++)
        *frame_of(&t, s, 0) = 0x0101;
    encode_in(&b, edition, &t, RAW);
    for (n = 0; n < b.len; n++)
        for (k = 0; k < sizeof values; k++) {
            uint8_t kept = b.at[n];
            b.at[n] = values[k];
            trial("byte %zu of the %s edition made %u", n, editions[edition].name, values[k]);
            try_bytes(&b, range(0x0100, 0x017F));
            b.at[n] = kept;
        }
}

static void any_files(void)
{
    static struct bytes b;
    size_t i, n;
    for (i = 0; i < 3000; i++) {
        struct take t = any_take(3);
        trial("random file %zu", i);
        encode_in(&b, t.model.len <= 10 && random_below(2) ? OLDER : NEWER, &t, RAW);
        for (n = random_below(4); n > 0 && b.len > editions[OLDER].sections + 4; n--)
            spoil(&b);
        try_bytes(&b, any_range(&t));
    }
}

/* ---- laws */

/* The calls that a program makes, into room enough; the file that they write. */
static void excerpt(enum manner m, const struct bytes *in, struct range r, struct bytes *out)
{
    uint64_t size = 0, len = 0;
    expect_number("excerpt_size", excerpt_size_in(m, in->at, in->len, r.first, r.last, &size), VMD_OK);
    expect_number("excerpt", excerpt_in(m, in->at, in->len, r.first, r.last, out->at, sizeof out->at, &len), VMD_OK);
    expect_number("size and length", size, len);
    out->len = len;
}

static void join(enum manner m, const struct bytes *first, const struct bytes *second, struct bytes *out)
{
    uint64_t len = 0;
    expect_number("join", join_in(m, first->at, first->len, second->at, second->len, out->at, sizeof out->at, &len), VMD_OK);
    out->len = len;
}

static void export(enum manner m, const struct bytes *in, struct bytes *out)
{
    uint64_t len = 0;
    expect_number("export", export_in(m, in->at, in->len, out->at, sizeof out->at, &len), VMD_OK);
    out->len = len;
}

static void expect_same_file(const char *what, const struct bytes *got, const struct bytes *want)
{
    expect_number(what, got->len, want->len);
    if (got->len == want->len)
        expect_bytes(what, got->at, want->at, want->len);
}

/* "An excerpt from 0 to 4,294,967,295 is the export." And that of the export is that of the file. */
static void law_of_the_export(enum manner m, const struct bytes *in, struct range r)
{
    static struct bytes exported, of_file, of_export;
    export(m, in, &exported);
    excerpt(m, in, whole_range, &of_file);
    expect_same_file("the excerpt of all frames", &of_file, &exported);
    excerpt(m, in, r, &of_file);
    excerpt(m, &exported, r, &of_export);
    expect_same_file("the export's excerpt", &of_export, &of_file);
}

/* "The excerpt of a join [..] equals the join of the excerpts." */
static void law_of_joins(enum manner m, const struct bytes *first, const struct bytes *second, struct range r,
                         const struct take *whole)
{
    static struct bytes both, of_join, excerpts[2], of_excerpts;
    struct take e = excerpt_of(whole, r);
    join(m, first, second, &both);
    excerpt(m, &both, r, &of_join);
    excerpt(m, first, r, &excerpts[0]);
    excerpt(m, second, r, &excerpts[1]);
    join(m, &excerpts[0], &excerpts[1], &of_excerpts);
    encode(&expected, &e, CANONICAL);
    expect_same_file("the join's excerpt", &of_join, &expected);
    expect_same_file("the join of the excerpts", &of_excerpts, &expected);
}

/* An excerpt's excerpt is one of the file, unless its first frame comes after the other's last: then nothing stays. */
static void law_of_excerpts(enum manner m, const struct bytes *in, struct range r, struct range of_it,
                            const struct name *model)
{
    static struct bytes once, twice, directly;
    uint64_t first = (uint64_t)r.first + of_it.first, last = smaller(r.last, (uint64_t)r.first + of_it.last);
    excerpt(m, in, r, &once);
    excerpt(m, &once, of_it, &twice);
    if (first <= r.last) {
        excerpt(m, in, range((uint32_t)first, (uint32_t)last), &directly);
    } else {
        struct take none = empty_take();
        none.model = *model;
        encode(&directly, &none, CANONICAL);
    }
    expect_same_file("an excerpt's excerpt", &twice, &directly);
    excerpt(m, &once, range(0, r.last - r.first), &twice);
    expect_same_file("an excerpt's excerpt of its own frames", &twice, &once);
}

/* Each record is in the excerpt up to a frame or in the one from the next on. */
static void law_of_two_pieces(enum manner m, const struct bytes *in, uint32_t at)
{
    static struct bytes pieces[2];
    static struct opening o, p, q;
    int s;
    if (at == 0xFFFFFFFF)
        return;
    excerpt(m, in, range(0, at), &pieces[0]);
    excerpt(m, in, range(at + 1, 0xFFFFFFFF), &pieces[1]);
    expected_opening(m, in->at, in->len, &o);
    expected_opening(STRICT, pieces[0].at, pieces[0].len, &p);
    expected_opening(STRICT, pieces[1].at, pieces[1].len, &q);
    for (s = 0; s < SECTIONS; s++)
        expect_number("records of both pieces", (uint64_t)p.counts[s] + q.counts[s], o.counts[s]);
    expect_number("IK states of both pieces", p.totals[VMD_TOTAL_IK_STATES] + q.totals[VMD_TOTAL_IK_STATES],
                  o.totals[VMD_TOTAL_IK_STATES]);
}

/* In the one manner and the other in turn, over files that it accepts. */
static void laws(void)
{
    static struct sample files[2];
    size_t i, k;
    for (i = 0; i < 3000; i++) {
        enum manner m = i % 2 ? STRICT : LENIENT;
        struct take whole, e;
        struct range r;
        trial("random takes %zu", i);
        for (k = 0; k < 2; k++) {
            struct take t = any_take(MOST / 2);
            make_whole(&files[k], t.model.len <= 10 && random_below(2) ? OLDER : NEWER, &t, RAW);
            if (m == LENIENT && random_below(2))
                damage(&files[k]);
        }
        whole = joined(&files[0].means, &files[1].means);
        r = any_range(&whole);
        law_of_joins(m, &files[0].file, &files[1].file, r, &whole);
        law_of_the_export(m, &files[0].file, r);
        e = excerpt_of(&files[0].means, r);
        law_of_excerpts(m, &files[0].file, r, any_range(&e), &e.model);
        law_of_two_pieces(m, &files[0].file, any_end(&whole));
    }
}

/* ---- many records, which a library may write by runs of those that stay */

/* So many records that stay, then so many that do not, and again, from this one on; any where both are 0. */
struct rhythm {
    size_t on, off, from;
};

static int is_on(const struct rhythm *y, size_t i)
{
    return y->on + y->off == 0 ? (int)random_below(2) : (y->from + i) % (y->on + y->off) < y->on;
}

static const struct range window = {1000, 1999};

/* Not in order, and often at the window's ends. */
static uint32_t frame_inside(size_t i)
{
    return i % 4 == 0 ? window.first : i % 4 == 1 ? window.last : window.first + (uint32_t)(i * 7919 % 1000);
}

static uint32_t frame_outside(size_t i)
{
    return i % 4 == 0 ? window.first - 1 : i % 4 == 1 ? window.last + 1 : i % 4 == 2 ? 0 : 0xFFFFFFFF - (uint32_t)i;
}

/* Something in the record is what only its number has. */
static void number_record(struct take *t, int section, size_t k, size_t i)
{
    switch (section) {
    case 0: t->bones[k].floats[6] = (uint32_t)i; break;
    case 1: t->morphs[k].weight = (uint32_t)i; break;
    case 2: t->cameras[k].field_of_view = (uint32_t)i; break;
    case 3: t->lights[k].floats[5] = (uint32_t)i; break;
    case 4: t->self_shadows[k].distance = (uint32_t)i; break;
    case 5: t->properties[k].states[0].name = numbered((uint32_t)i, 20, 0); break;
    }
}

/* The section's records go to the file, and those that stay to the excerpt as well. */
static void put_section(struct take *t, int section, size_t n, const struct rhythm *y)
{
    size_t i, count = expected.len;
    uint32_t kept = 0;
    put_u32(&file, (uint32_t)n);
    put_u32(&expected, 0);
    for (i = 0; i < n; i++) {
        size_t k = i % t->counts[section];
        uint32_t *frame = frame_of(t, section, k);
        int on = is_on(y, i);
        number_record(t, section, k, i);
        *frame = on ? frame_inside(i) : frame_outside(i);
        put_record(&file, t, section, k, RAW);
        if (!on)
            continue;
        *frame -= window.first;
        put_record(&expected, t, section, k, CANONICAL);
        kept++;
    }
    set_u32(&expected, count, kept);
}

/* One manner and the other in turn, an odd number of calls for each file. */
static enum manner in_turn(void)
{
    static unsigned turn;
    return turn++ % 2 ? STRICT : LENIENT;
}

/* So many records of each section in this rhythm, of the one edition and the other in turn. */
static void try_rhythm(const size_t n[SECTIONS], const struct rhythm *y)
{
    static struct take t;
    static struct bytes of_bytes;
    static struct opening o;
    static unsigned turn;
    enum edition edition = turn++ % 2 ? OLDER : NEWER;
    size_t exported;
    int s;
    t = distinct_take(7, 7, 8, 9, 10, 11, 12);
    file.len = expected.len = 0;
    put_header_of(&file, edition, &t.model, RAW);
    put_header(&expected, &t.model, CANONICAL);
    for (s = 0; s < SECTIONS; s++)
        put_section(&t, s, n[s], y);
    exported = file.len + 50 - editions[edition].sections;
    expect_number("the test's own opening", expected_opening(STRICT, file.at, file.len, &o), VMD_OK);
    put_excerpt(&of_bytes, &file, &o, window);
    expect_same_file("the test's own excerpts", &of_bytes, &expected);
    size_of_excerpt(in_turn(), &file, window, VMD_OK, expected.len);
    excerpt_into(in_turn(), &file, window, VMD_OUTPUT_TOO_SHORT, NULL, expected.len - 1);
    excerpt_into(in_turn(), &file, window, VMD_OK, &expected, expected.len);
    excerpt_into(in_turn(), &file, window, VMD_OK, &expected, exported);
    excerpt_into(in_turn(), &file, window, VMD_OK, &expected, exported + 1);
    expect_written(expected.at, expected.len);
}

/* In one section, and in all of them. */
static void try_rhythms(size_t records, const struct rhythm *y)
{
    size_t n[SECTIONS];
    int section, s;
    for (section = 0; section < SECTIONS; section++) {
        trial("%zu records of section %d, %zu that stay, %zu that do not, from %zu on", records, section, y->on, y->off,
              y->from);
        for (s = 0; s < SECTIONS; s++)
            n[s] = s == section ? records : 0;
        try_rhythm(n, y);
    }
    if (records > 400) /* of all sections they would be too many for the test's own file */
        return;
    trial("%zu records of every section, %zu that stay, %zu that do not, from %zu on", records, y->on, y->off, y->from);
    for (s = 0; s < SECTIONS; s++)
        n[s] = records - smaller((size_t)s, records - 1);
    try_rhythm(n, y);
}

/* Runs of either kind, of lengths around 64 and 128, and records around these numbers, beginning with either kind. */
static void runs(void)
{
    static const struct rhythm rhythms[] = {
        {1, 0, 0},   {0, 1, 0},     {1, 1, 0},      {2, 1, 0},     {1, 2, 1},    {3, 5, 0},    {63, 1, 0},    {64, 1, 0},
        {65, 1, 0},  {1, 63, 0},    {1, 64, 0},     {1, 65, 0},    {64, 64, 0},  {65, 65, 0},  {64, 65, 64},  {65, 64, 65},
        {128, 1, 0}, {129, 128, 0}, {128, 129, 128}, {200, 3, 190}, {3, 200, 20}, {66, 130, 0}, {130, 66, 130}, {0, 0, 0},
    };
    static const size_t numbers[] = {1, 2, 63, 64, 65, 66, 127, 128, 129, 130, 193, 260, 320};
    size_t k, l;
    for (k = 0; k < sizeof rhythms / sizeof *rhythms; k++)
        for (l = 0; l < sizeof numbers / sizeof *numbers; l++)
            try_rhythms(numbers[l], &rhythms[k]);
    for (k = 0; k < sizeof rhythms / sizeof *rhythms; k += 4)
        try_rhythms(2000, &rhythms[k]);
}

/* More than 16 bits count, read and kept: every third self-shadow is left out. */
static void more_than_16_bits(enum manner m)
{
    enum { READ = 140000, KEPT = READ - READ / 3 - 1, LENGTH = 74 + 9 * READ, LEFT = 74 + 9 * KEPT };
    static uint8_t in[LENGTH], want[LENGTH], out[LENGTH];
    static struct bytes one;
    uint64_t n = 0;
    size_t i, at = 70, to = 70;
    one.len = 0;
    put(&one, "Vocaloid Motion Data 0002\0\0\0\0", 30);
    memset(one.at + 30, 0, 36);
    memcpy(in, one.at, 66);
    memcpy(want, one.at, 66);
    for (i = 0; i < READ; i++, at += 9) {
        one.len = 0;
        put_u32(&one, i % 3 ? (uint32_t)(70000 + i) : 69999);
        put_byte(&one, 2);
        put_u32(&one, (uint32_t)i);
        memcpy(in + at, one.at, 9);
        if (i % 3 == 0)
            continue;
        set_u32(&one, 0, (uint32_t)i);
        memcpy(want + to, one.at, 9);
        to += 9;
    }
    one.len = 0;
    put_u32(&one, READ);
    put_u32(&one, KEPT);
    memcpy(in + 66, one.at, 4);
    memcpy(want + 66, one.at + 4, 4);
    memset(in + at, 0, 4);
    memset(want + to, 0, 4);
    trial("%d self-shadows, of which %d stay", (int)READ, (int)KEPT);
    expect_number("the test's own length", to + 4, LEFT);
    expect_number("excerpt_size", excerpt_size_in(m, in, LENGTH, 70000, 300000, &n), VMD_OK);
    expect_number("excerpt_size", n, LEFT);
    n = 7;
    memset(out, UNWRITTEN, sizeof out);
    expect_number("excerpt, a byte short", excerpt_in(m, in, LENGTH, 70000, 300000, out, LEFT - 1, &n),
                  VMD_OUTPUT_TOO_SHORT);
    expect_number("written", n, 7);
    expect_unwritten("output", out, sizeof out);
    expect_number("excerpt", excerpt_in(m, in, LENGTH, 70000, 300000, out, sizeof out, &n), VMD_OK);
    expect_number("written", n, LEFT);
    expect_bytes("output", out, want, LEFT);
    expect_unwritten("output past the file", out + LEFT, sizeof out - LEFT);
}

int main(void)
{
    enum edition edition;
    enum manner m;
    told_in_bytes();
    frames_told();
    sections_told();
    other_takes();
    for (m = STRICT; m < MANNERS; m++) {
        properties_told(m);
        legs_stay_off(m);
        nothing_stays(m);
        every_length(m);
        more_than_16_bits(m);
    }
    for (edition = NEWER; edition < EDITIONS; edition++) {
        first_above_last(edition);
        refused(edition);
        cut_anywhere(edition);
        any_byte_changed(edition);
    }
    any_takes();
    damaged_files();
    any_files();
    laws();
    runs();
    for (m = STRICT; m < MANNERS; m++)
        file_unread(m);
    return finished("excerpt");
}
