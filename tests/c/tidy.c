/*
 * Tidying, through the C interface, in both manners: every byte of every output, every place of the scratch and every slot,
 * in refusals too, against an order of records that the test finds from the words of requests g) and k).
 *
 * Not tried: 13 where no 64-bit length could hold the file.
 */
#include "check.h"
#include "damaged.h"
#include "expect.h"
#include "names.h"
#include "open.h"
#include "random.h"
#include "tidy.h"
#include "vmd.h"

#include <ucontext.h>

/* ---- the order of many records */

static const struct key *sorted_keys;

static int by_key_and_number(const void *a, const void *b)
{
    size_t i = *(const size_t *)a, j = *(const size_t *)b;
    if (same_key(&sorted_keys[i], &sorted_keys[j]))
        return i < j ? -1 : i > j;
    return goes_before(&sorted_keys[i], &sorted_keys[j]) ? -1 : 1;
}

/* What tidy_order gives, for many records: all of them sorted, and of equal keys the last one. */
static size_t tidy_order_of_many(const struct key *keys, size_t n, size_t *order)
{
    size_t i, kept = 0;
    for (i = 0; i < n; i++)
        order[i] = i;
    sorted_keys = keys;
    qsort(order, n, sizeof *order, by_key_and_number);
    for (i = 0; i < n; i++)
        if (i + 1 == n || !same_key(&keys[order[i]], &keys[order[i + 1]]))
            order[kept++] = order[i];
    return kept;
}

/* ---- takes */

/* Any bytes after a name's zero, line feeds among them, which are no part of it. */
static void stir(uint8_t *field, size_t width)
{
    uint8_t *zero = memchr(field, 0, width), *at;
    if (zero != NULL)
        for (at = zero + 1; at < field + width; at++)
            *at = random_below(4) ? (uint8_t)random_u64() : LINE_FEED;
}

/* The same in every name of a file: those of one track then differ there. */
static void stir_names(struct bytes *file)
{
    static struct opening o;
    size_t i, j;
    int s;
    if (expected_opening(LENIENT, file->at, file->len, &o) != VMD_OK)
        return;
    for (s = VMD_BONES; s <= VMD_MORPHS; s++)
        for (i = 0; i < o.counts[s]; i++)
            stir(file->at + o.places[s] + record_sizes[s] * i, 15);
    for (i = 0; i < o.counts[VMD_PROPERTIES]; i++)
        for (j = 0; j < u32_at(file->at + o.frames[i] + 5); j++)
            stir(file->at + o.frames[i] + 9 + 21 * j, 20);
}

static struct bytes file, expected_bytes;

/* In each edition that can hold its model name. The newer one is last, and stays in file. */
static void try_take(const char *name, struct take *t, enum form form)
{
    struct tidied expected = tidied_take(t, &expected_bytes);
    int edition;
    for (edition = OLDER; edition >= NEWER; edition--) {
        struct input in;
        if (t->model.len > editions[edition].model_width)
            continue;
        trial("%s, %s edition", name, editions[edition].name);
        encode_in(&file, (enum edition)edition, t, form);
        if (form == RAW)
            stir_names(&file);
        in = input_of(&file);
        try_tidy(&in, alike(VMD_OK), &expected);
    }
}

/* ---- what request g) says, told in numbers */

struct told {
    const char *name;
    uint32_t frame;
};

/* Of these records the weights, the distances or the numbers of IK states say which one it is. */
static void tracks_told(void)
{
    static const struct told morphs[7] = {
        {"b", 7}, {"a", 3}, {"b", 2}, {"a", 3}, {"b", 7}, {"", 0xFFFFFFFF}, {"a", 0}
    };
    static const uint32_t kept[SECTIONS] = {0, 5, 0, 0, 0, 0}, dropped[SECTIONS] = {0, 2, 0, 0, 0, 0};
    static const uint32_t written[5] = {2, 4, 6, 3, 5}; /* b: 2, 7; a: 0, 3; the empty name */
    struct take t = distinct_take(0, 0, 7, 0, 0, 0, 0);
    uint32_t got_kept[SECTIONS], got_dropped[SECTIONS];
    uint64_t scratch[7], len = 0;
    uint8_t out[74 + 5 * 23];
    size_t i;
    for (i = 0; i < 7; i++) {
        t.morphs[i].name = named(morphs[i].name);
        t.morphs[i].frame = morphs[i].frame;
        t.morphs[i].weight = (uint32_t)i;
    }
    try_take("morphs told in numbers", &t, RAW);
    expect_number("tidy", vmd_tidy_animation(file.at, file.len, scratch, 7, out, sizeof out, &len, got_kept, got_dropped),
                  VMD_OK);
    expect_number("written", len, sizeof out);
    expect_bytes("kept", got_kept, kept, sizeof kept);
    expect_bytes("dropped", got_dropped, dropped, sizeof dropped);
    expect_number("morph count", u32_at(out + 54), 5);
    for (i = 0; i < 5; i++)
        expect_number("weight", u32_at(out + 58 + 23 * i + 19), written[i]);
}

/* A remark does not tell tracks apart, and is written with the record that has it. */
static void remarks_told(void)
{
    static const struct told bones[6] = {{"A\nx", 5}, {"B", 1}, {"A\ny", 5}, {"A", 2}, {"A\nx", 9}, {"B\nx", 1}};
    static const struct told written[4] = {{"A", 2}, {"A\ny", 5}, {"A\nx", 9}, {"B\nx", 1}};
    struct take t = distinct_take(0, 6, 0, 0, 0, 0, 0);
    uint32_t kept[SECTIONS], dropped[SECTIONS];
    uint64_t scratch[6], len = 0;
    uint8_t out[74 + 4 * 111], name[FIELD];
    size_t i;
    for (i = 0; i < 6; i++) {
        t.bones[i].name = named(bones[i].name);
        t.bones[i].frame = bones[i].frame;
    }
    try_take("bones with remarks told in numbers", &t, RAW);
    expect_number("tidy", vmd_tidy_animation(file.at, file.len, scratch, 6, out, sizeof out, &len, kept, dropped), VMD_OK);
    expect_number("written", len, sizeof out);
    expect_number("kept", kept[VMD_BONES], 4);
    expect_number("dropped", dropped[VMD_BONES], 2);
    for (i = 0; i < 4; i++) {
        memset(name, 0, sizeof name);
        memcpy(name, written[i].name, strlen(written[i].name));
        expect_bytes("name", out + 54 + 111 * i, name, sizeof name);
        expect_number("frame", u32_at(out + 54 + 111 * i + 15), written[i].frame);
    }
}

/* A record that is first in the file and last by its frame is dropped; IK states are those of the record that is kept. */
static void properties_told(void)
{
    static const uint32_t frames[4] = {9, 3, 9, 3};
    static const size_t states[4] = {4, 0, 1, 2};
    struct take t = distinct_take(3, 0, 0, 0, 0, 0, 4);
    uint32_t kept[SECTIONS], dropped[SECTIONS];
    uint64_t scratch[4], len = 0;
    uint8_t out[74 + 2 * 9 + 3 * 21];
    size_t i, j;
    for (i = 0; i < 4; i++) {
        t.properties[i].frame = frames[i];
        t.properties[i].n_states = states[i];
        for (j = 0; j < states[i]; j++)
            t.properties[i].states[j].name = numbered((uint32_t)(10 * i + j), 20, 0);
    }
    try_take("property frames told in numbers", &t, RAW);
    expect_number("tidy", vmd_tidy_animation(file.at, file.len, scratch, 4, out, sizeof out, &len, kept, dropped), VMD_OK);
    expect_number("written", len, sizeof out);
    expect_number("kept", kept[VMD_PROPERTIES], 2);
    expect_number("dropped", dropped[VMD_PROPERTIES], 2);
    expect_number("first frame", u32_at(out + 74), 3);
    expect_number("its IK states", u32_at(out + 79), 2);
    expect_bytes("the first's name", out + 83, t.properties[3].states[0].name.at, 20);
    expect_bytes("the second's name", out + 104, t.properties[3].states[1].name.at, 20);
    expect_number("second frame", u32_at(out + 125), 9);
    expect_number("its IK states", u32_at(out + 130), 1);
    expect_bytes("the name", out + 134, t.properties[2].states[0].name.at, 20);
}

/* A row of records of a section, and the numbers of those that are kept, as they are to be written. */
static void try_order(const char *what, size_t row, int section, const struct told *records, size_t n,
                      const size_t *told_order, size_t kept)
{
    struct take t = one_section_take(section, n);
    size_t i, order[MOST_PROPERTIES];
    char name[64];
    snprintf(name, sizeof name, "%s of row %zu in section %d", what, row, section);
    for (i = 0; i < n; i++) {
        *frame_of(&t, section, i) = records[i].frame;
        t.bones[i].name = t.morphs[i].name = named(records[i].name);
    }
    trial("%s", name);
    expect_number("the test's own number", order_of(&t, section, order), kept);
    for (i = 0; i < kept; i++)
        expect_number("the test's own order", order[i], told_order[i]);
    try_take(name, &t, RAW);
}

/* Frames 9, 3, 9, the ends of the range, and one frame throughout, in each section. */
static void frames_told(void)
{
    static const struct {
        size_t n;
        uint32_t frames[6];
        size_t kept, order[6];
    } rows[] = {
        {1, {5}, 1, {0}},
        {3, {9, 3, 9}, 2, {1, 2}},
        {3, {9, 9, 3}, 2, {2, 1}},
        {2, {0xFFFFFFFF, 0}, 2, {1, 0}},
        {6, {0xFFFFFFFF, 0, 0x80000000, 0x7FFFFFFF, 0, 0xFFFFFFFF}, 4, {4, 3, 2, 5}},
        {5, {8, 8, 8, 8, 8}, 1, {4}},
        {6, {1, 2, 3, 4, 5, 6}, 6, {0, 1, 2, 3, 4, 5}},
        {6, {6, 5, 4, 3, 2, 1}, 6, {5, 4, 3, 2, 1, 0}},
        {4, {0x00010000, 0x01000000, 0x00000100, 0x00000001}, 4, {3, 2, 0, 1}},
    };
    struct told records[6];
    size_t k, i;
    int s;
    for (k = 0; k < sizeof rows / sizeof *rows; k++)
        for (s = 0; s < SECTIONS; s++) {
            for (i = 0; i < rows[k].n; i++) {
                records[i].name = "one";
                records[i].frame = rows[k].frames[i];
            }
            try_order("frames", k, s, records, rows[k].n, rows[k].order, rows[k].kept);
        }
}

/* Names with other remarks, each at one frame and at several; and names that only look like them. */
static void names_told(void)
{
    static const struct {
        size_t n;
        struct told records[6];
        size_t kept, order[6];
    } rows[] = {
        {3, {{"A", 5}, {"A\nx", 5}, {"A\ny", 5}}, 1, {2}},
        {3, {{"A\ny", 5}, {"A\nx", 5}, {"A", 5}}, 1, {2}},
        {3, {{"A", 9}, {"A\nx", 3}, {"A\ny", 6}}, 3, {1, 2, 0}},
        {6, {{"A", 9}, {"A\nx", 3}, {"A\ny", 6}, {"A\nx", 9}, {"A\ny", 3}, {"A", 6}}, 3, {4, 5, 3}},
        {4, {{"A\nx", 5}, {"B", 1}, {"A\ny", 5}, {"A", 2}}, 3, {3, 2, 1}},
        {4, {{"B\n", 7}, {"A", 7}, {"B", 7}, {"A\n", 7}}, 2, {2, 3}},
        {4, {{"\nx", 4}, {"", 4}, {"A", 4}, {"\n", 4}}, 2, {3, 2}},
        {4, {{"", 8}, {"\n\n", 7}, {"\n\nx", 8}, {"\nA", 6}}, 3, {3, 1, 2}},
        {3, {{"A\nx\ny", 5}, {"A\nx", 5}, {"A\n\nx", 5}}, 1, {2}},
        {4, {{"A", 5}, {"A\r\n", 5}, {"A\r", 5}, {"A\n\r", 5}}, 2, {3, 2}},
        {4, {{"A", 5}, {"A\v", 5}, {"A\x8A", 5}, {"a\n", 5}}, 4, {0, 1, 2, 3}},
        {3, {{"AB", 5}, {"A\nB", 5}, {"AB\n", 5}}, 2, {2, 1}},
        {4, {{"fourteen bytes", 5}, {"fourteen bytes\n", 5}, {"fourteen bytes!", 5}, {"fourteen byte\n!", 5}}, 3, {1, 2, 3}},
    };
    size_t k;
    int s;
    for (k = 0; k < sizeof rows / sizeof *rows; k++)
        for (s = VMD_BONES; s <= VMD_MORPHS; s++)
            try_order("remarks", k, s, rows[k].records, rows[k].n, rows[k].order, rows[k].kept);
}

/* ---- any takes: few names and few frames, in any order */

/* The beginnings of others, and the empty name, each a track of its own; half of them with a remark, as far as it fits. */
static struct name any_name(size_t names)
{
    static const char *const few[] = {
        "b", "a", "", "ab", "\v", "seven b", "eight by", "eight byt", "fourteen bytes", "fifteen letters", "fifteen letterS",
        "\xFF", "a\r"
    };
    static const char *const remarks[] = {"\n", "\n1", "\n2", "\n\n", "\nb", "\n and a long one"};
    struct name n = named(few[random_below(smaller(names, sizeof few / sizeof *few))]);
    const char *remark = random_below(2) ? remarks[random_below(sizeof remarks / sizeof *remarks)] : "";
    while (n.len < FIELD && *remark != 0)
        n.at[n.len++] = (uint8_t)*remark++;
    return n;
}

static uint32_t any_frame(size_t frames)
{
    static const uint32_t few[] = {4, 0, 0xFFFFFFFF, 1, 0x7FFFFFFF, 0x80000000, 256, 0x00010000, 0x01000000, 5, 6, 7};
    return random_below(10) ? few[random_below(smaller(frames, sizeof few / sizeof *few))] : (uint32_t)random_u64();
}

static void any_states(struct property *r)
{
    size_t j;
    r->n_states = random_below(MOST_STATES + 1);
    for (j = 0; j < r->n_states; j++) {
        r->states[j].name = next_name(random_below(21));
        r->states[j].enabled = (uint8_t)random_below(3);
    }
}

/* At most so many records in each section. */
static struct take any_take(size_t most)
{
    size_t names = 1 + random_below(13), frames = 1 + random_below(12), n[SECTIONS], i;
    struct take t;
    int s;
    for (s = 0; s < SECTIONS; s++)
        n[s] = random_below(4) ? random_below(most + 1) : random_below(3);
    if (most == MOST && random_below(8) == 0)
        n[VMD_PROPERTIES] = random_below(MOST_PROPERTIES + 1);
    t = distinct_take(random_below(3) ? random_below(11) : random_below(21), n[0], n[1], n[2], n[3], n[4], n[5]);
    for (s = 0; s < SECTIONS; s++)
        for (i = 0; i < n[s]; i++)
            *frame_of(&t, s, i) = any_frame(frames);
    for (i = 0; i < n[VMD_BONES]; i++)
        t.bones[i].name = any_name(names);
    for (i = 0; i < n[VMD_MORPHS]; i++)
        t.morphs[i].name = any_name(names);
    for (i = 0; i < n[VMD_PROPERTIES]; i++)
        any_states(&t.properties[i]);
    return t;
}

static void any_takes(void)
{
    size_t i;
    for (i = 0; i < 3000; i++) {
        struct take t = any_take(MOST);
        char name[32];
        snprintf(name, sizeof name, "random take %zu", i);
        try_take(name, &t, i % 4 ? RAW : CANONICAL);
    }
}

/* Takes whose records are what they are by themselves: none is dropped, unless two names and frames are equal. */
static void other_takes(void)
{
    struct take t = empty_take();
    size_t from;
    int s;
    try_take("the empty take", &t, CANONICAL);
    t = distinct_take(20, 0, 0, 0, 0, 0, 0);
    try_take("a model name and no records", &t, RAW);
    t = distinct_take(10, MOST, MOST, MOST, MOST, MOST, MOST_PROPERTIES);
    try_take("six sections", &t, RAW);
    t = leg_take();
    try_take("a leg that goes off", &t, CANONICAL);
    for (s = 0; s < SECTIONS; s++) {
        t = one_section_take(s, MOST);
        try_take("one section", &t, RAW);
    }
    for (from = 0; from < ODD; from++) {
        t = odd_floats_take(from);
        try_take("odd floats", &t, RAW);
    }
}

/* ---- files as others write them, and files that are refused */

/* Of a file that was a take's before it was damaged. */
static void try_damaged(const struct take *t)
{
    static struct opening o;
    struct input in = input_of(&file);
    struct reading reads = expected_reading(file.at, file.len, &o);
    struct tidied expected;
    struct take left;
    if (reads.in[LENIENT] != VMD_OK) {
        try_tidy_refused(&in, reads);
        return;
    }
    left = left_of(t, &o);
    expected = tidied_take(&left, &expected_bytes);
    try_tidy(&in, reads, &expected);
}

static void cut_anywhere(enum edition edition)
{
    struct take t = crowded_take(9, 4);
    size_t n;
    encode_in(&file, edition, &t, RAW);
    for (n = file.len; n-- > 0;) {
        trial("a file of the %s edition cut after %zu bytes", editions[edition].name, n);
        file.len = n;
        try_damaged(&t);
    }
}

/* A count that the rest of the file cannot hold, of each section; bytes over; another magic. */
static void damaged(enum edition edition)
{
    struct take t = crowded_take(9, 4);
    static struct opening o;
    size_t n;
    for (n = 0; n < SECTIONS; n++) {
        trial("a count of section %zu that is too large, %s edition", n, editions[edition].name);
        encode_in(&file, edition, &t, RAW);
        expected_opening(STRICT, file.at, file.len, &o);
        set_u32(&file, o.places[n] - 4, 0xFFFFFFFF);
        try_damaged(&t);
    }
    trial("bytes after the last property frame, %s edition", editions[edition].name);
    encode_in(&file, edition, &t, RAW);
    put(&file, file.at, 50);
    try_damaged(&t);
    for (n = 0; n < MAGIC_TOLD; n++) {
        struct input in;
        trial("byte %zu of the magic changed, %s edition", n, editions[edition].name);
        encode_in(&file, edition, &t, RAW);
        file.at[n] ^= 1;
        in = input_of(&file);
        try_tidy_refused(&in, alike(VMD_MAGIC_DIFFERS));
    }
}

/* ---- laws */

/* The calls that a program makes, into room enough; the file that they write. */
static void tidy(enum manner m, const struct bytes *in, struct bytes *out, uint32_t kept[SECTIONS],
                 uint32_t dropped[SECTIONS])
{
    uint64_t len = 0;
    expect_number("tidy", tidy_in(m, in->at, in->len, stood, MOST_PLACES, out->at, sizeof out->at, &len, kept, dropped),
                  VMD_OK);
    out->len = len;
}

static void join(enum manner m, const struct bytes *first, const struct bytes *second, struct bytes *out)
{
    uint64_t len = 0;
    expect_number("join", join_in(m, first->at, first->len, second->at, second->len, out->at, sizeof out->at, &len), VMD_OK);
    out->len = len;
}

static void expect_same_file(const char *what, const struct bytes *got, const struct bytes *expected)
{
    expect_number(what, got->len, expected->len);
    if (got->len == expected->len)
        expect_bytes(what, got->at, expected->at, expected->len);
}

/* Tidied twice it is the same, and nothing more is dropped. */
static void tidied_twice(enum manner m, const struct bytes *once)
{
    static struct bytes twice;
    static const uint32_t none[SECTIONS];
    uint32_t kept[SECTIONS], dropped[SECTIONS];
    static struct opening o;
    expected_opening(m, once->at, once->len, &o);
    tidy(m, once, &twice, kept, dropped);
    expect_same_file("tidied twice", &twice, once);
    expect_bytes("dropped the second time", dropped, none, sizeof none);
    expect_bytes("kept the second time", kept, o.counts, sizeof kept);
    expect_written(once->at, once->len);
}

/* A join tidied, and the join of the two tidied ones tidied, both as the test's own order tells. */
static void try_join(enum manner m, const struct sample files[2])
{
    static struct bytes both, tidied[2], of_join, of_tidied;
    uint32_t kept[SECTIONS], dropped[SECTIONS];
    struct take whole;
    size_t k, s;
    for (k = 0; k < 2; k++) {
        tidy(m, &files[k].file, &tidied[k], kept, dropped);
        for (s = 0; s < SECTIONS; s++)
            expect_number("kept and dropped", (uint64_t)kept[s] + dropped[s], files[k].means.counts[s]);
        tidied_twice(m, &tidied[k]);
    }
    join(m, &files[0].file, &files[1].file, &both);
    tidy(m, &both, &of_join, kept, dropped);
    join(m, &tidied[0], &tidied[1], &both);
    tidy(m, &both, &of_tidied, kept, dropped);
    whole = joined(&files[0].means, &files[1].means);
    tidied_take(&whole, &expected_bytes);
    expect_same_file("the join tidied", &of_join, &expected_bytes);
    expect_same_file("the join of the two tidied, tidied", &of_tidied, &expected_bytes);
    tidied_twice(m, &of_join);
}

static struct sample halves[2];

/* In the one manner and the other in turn, over files that it accepts. */
static void laws(void)
{
    size_t i, k;
    for (i = 0; i < 3000; i++) {
        enum manner m = i % 2 ? STRICT : LENIENT;
        trial("random join %zu", i);
        for (k = 0; k < 2; k++) {
            struct take t = any_take(MOST / 2);
            make_whole(&halves[k], t.model.len <= 10 && random_below(2) ? OLDER : NEWER, &t, RAW);
            stir_names(&halves[k].file);
            if (m == LENIENT && random_below(2))
                damage(&halves[k]);
        }
        try_join(m, halves);
    }
}

/* Two halves that spell the remarks of the same tracks otherwise: the tracks come as in the first, the second's are last. */
static void halves_with_remarks(void)
{
    static const struct told records[2][4] = {
        {{"A\nx", 5}, {"B", 3}, {"A\nx", 2}, {"B\nx", 3}},
        {{"B\ny", 3}, {"C\n", 1}, {"A", 5}, {"A\ny", 4}},
    };
    static const size_t told[5] = {2, 7, 6, 4, 5}; /* A: 2, 4, 5; B: 3; C: 1 */
    struct take whole;
    size_t k, i, order[MOST_PROPERTIES];
    enum manner m;
    trial("a join of halves with other remarks");
    for (k = 0; k < 2; k++) {
        struct take t = distinct_take(3, 4, 4, 0, 0, 0, 0);
        for (i = 0; i < 4; i++) {
            t.bones[i].name = t.morphs[i].name = named(records[k][i].name);
            t.bones[i].frame = t.morphs[i].frame = records[k][i].frame;
        }
        make_whole(&halves[k], NEWER, &t, RAW);
    }
    whole = joined(&halves[0].means, &halves[1].means);
    for (i = VMD_BONES; i <= VMD_MORPHS; i++) {
        expect_number("the test's own number", order_of(&whole, (int)i, order), 5);
        expect_bytes("the test's own order", order, told, sizeof told);
    }
    for (m = STRICT; m < MANNERS; m++)
        try_join(m, halves);
}

/* ---- many records of one section: kept records are counted in passes, and names through a cache */

/* The key of record i of n. Where a section is one track, the track does not count. */
typedef struct key (*shape)(size_t i, size_t n);

static struct key keyed(size_t track, size_t frame)
{
    struct key key;
    key.track = track;
    key.frame = (uint32_t)frame;
    return key;
}

/* No two are equal for the numbers of records here: the divisor is prime. */
static size_t shuffled(size_t i)
{
    return i * 48271 % 65537;
}

static struct key rising(size_t i, size_t n)
{
    (void)n;
    return keyed(0, i);
}

static struct key falling(size_t i, size_t n)
{
    return keyed(0, n - 1 - i);
}

static struct key any_order(size_t i, size_t n)
{
    (void)n;
    return keyed(0, shuffled(i));
}

/* All 32 bits of a frame, none twice: the factor is odd. */
static struct key whole_range(size_t i, size_t n)
{
    (void)n;
    return keyed(0, i * 0x9E3779B1);
}

static struct key one_frame(size_t i, size_t n)
{
    (void)i;
    (void)n;
    return keyed(0, 5);
}

static struct key twice_in_a_row(size_t i, size_t n)
{
    (void)n;
    return keyed(0, shuffled(i / 2));
}

/* Each frame once more when all of them have been: two records of a frame lie far apart. */
static struct key all_again(size_t i, size_t n)
{
    return keyed(0, shuffled(i % ((n + 1) / 2)));
}

static struct key all_again_falling(size_t i, size_t n)
{
    size_t half = n / 2;
    return keyed(0, i < half ? i : n - 1 - i);
}

static struct key few_frames(size_t i, size_t n)
{
    (void)i;
    return keyed(0, random_below(n / 20 + 1));
}

static struct key own_names_rising(size_t i, size_t n)
{
    (void)n;
    return keyed(i, 5);
}

static struct key own_names_falling(size_t i, size_t n)
{
    return keyed(n - 1 - i, i);
}

static struct key own_names_any_order(size_t i, size_t n)
{
    (void)n;
    return keyed(shuffled(i), 0xFFFFFFFF);
}

/* Each name at two frames, the second one smaller; then at two equal ones. */
static struct key names_again(size_t i, size_t n)
{
    size_t half = (n + 1) / 2;
    return keyed(shuffled(i % half), 1 - i / half);
}

static struct key names_again_equal(size_t i, size_t n)
{
    return keyed(shuffled(i % ((n + 1) / 2)), 7);
}

/* Tracks beside one another, as a take has them. */
static struct key tracks_falling(size_t i, size_t n)
{
    return keyed(i % 150, (n - i) / 150);
}

static struct key few_names(size_t i, size_t n)
{
    (void)i;
    return keyed(random_below(300), random_below(n / 300 + 1));
}

static const struct {
    const char *name;
    shape key;
} frame_shapes[] = {
    {"rising", rising}, {"falling", falling}, {"any order", any_order}, {"over the whole range", whole_range},
    {"one frame", one_frame}, {"each twice in a row", twice_in_a_row}, {"all again", all_again},
    {"all again, falling", all_again_falling}, {"few frames", few_frames},
}, name_shapes[] = {
    {"own names, rising", own_names_rising}, {"own names, falling", own_names_falling},
    {"own names in any order", own_names_any_order}, {"all names again", names_again},
    {"all names and frames again", names_again_equal}, {"tracks falling", tracks_falling}, {"few names", few_names},
};

enum { FRAME_SHAPES = sizeof frame_shapes / sizeof *frame_shapes, NAME_SHAPES = sizeof name_shapes / sizeof *name_shapes };

struct large {
    size_t len;
    uint8_t at[FENCE_ROOM - 64];
};

static void append(struct large *to, const void *from, size_t n)
{
    if (n > sizeof to->at - to->len) {
        fprintf(stderr, "%s: the test's own file is too long\n", trying);
        exit(2);
    }
    memcpy(to->at + to->len, from, n);
    to->len += n;
}

static void append_u32(struct large *to, uint32_t value)
{
    static struct bytes b;
    b.len = 0;
    put_u32(&b, value);
    append(to, b.at, b.len);
}

/* The name that record i has, which is of this track. */
typedef struct field (*naming)(size_t track, size_t i);

static struct field in_field(const struct name *name)
{
    struct field f;
    memset(&f, 0, sizeof f);
    memcpy(f.at, name->at, name->len);
    stir(f.at, FIELD);
    return f;
}

/* Names of other lengths whose order is not that of their numbers. */
static struct field plain(size_t track, size_t i)
{
    struct name n = numbered((uint32_t)track, track % 3 ? 7 : 15, track % 3 == 0);
    (void)i;
    return in_field(&n);
}

/* Names of 6 to 15 bytes, a quarter with no remark, a quarter with an empty one, and half with the record's number as one. */
static struct field remarked(size_t track, size_t i)
{
    size_t len = 6 + track % 10;
    struct name n = numbered((uint32_t)track, len, len % 2 == 0), remark = numbered((uint32_t)i, FIELD - len, 0);
    if (i % 4 > 0 && len < FIELD) {
        memcpy(n.at + len, remark.at, remark.len);
        n.at[len] = LINE_FEED;
        n.len = i % 4 == 1 ? len + 1 : FIELD;
    }
    return in_field(&n);
}

/* A record of a take becomes number i: its key, and something in it that only this number has. */
static void make_record(struct take *t, int section, size_t k, size_t i, uint32_t frame, const struct field *field)
{
    *frame_of(t, section, k) = frame;
    switch (section) {
    case 0: t->bones[k].name = name_in(field), t->bones[k].floats[6] = (uint32_t)i; break;
    case 1: t->morphs[k].name = name_in(field), t->morphs[k].weight = (uint32_t)i; break;
    case 2: t->cameras[k].field_of_view = (uint32_t)i; break;
    case 3: t->lights[k].floats[5] = (uint32_t)i; break;
    case 4: t->self_shadows[k].distance = (uint32_t)i; break;
    case 5: t->properties[k].states[0].name = numbered((uint32_t)i, 20, 0); break;
    }
}

static struct key keys[MOST_RECORDS];
static size_t order[MOST_RECORDS], ends[MOST_RECORDS + 1];
static struct large large_file, large_tidied, canonical;

/* The section's records go to the file; as they are to be written they are put apart, each up to its end. */
static void make_records(struct take *t, int section, size_t n, naming name)
{
    static struct bytes one;
    size_t i;
    canonical.len = 0;
    for (i = 0; i < n; i++) {
        size_t k = i % t->counts[section];
        struct field field = name(keys[i].track, i);
        make_record(t, section, k, i, keys[i].frame, &field);
        one.len = 0;
        put_record(&one, t, section, k, RAW);
        if (section < 2)
            memcpy(one.at, field.at, FIELD);
        append(&large_file, one.at, one.len);
        one.len = 0;
        put_record(&one, t, section, k, CANONICAL);
        append(&canonical, one.at, one.len);
        ends[i + 1] = canonical.len;
    }
}

/* A name's number becomes that of its first record; sections of one track have none. */
static void number_tracks(int section, size_t n)
{
    static size_t first[1 << 17]; /* one more than the number, 0 where the name has not been */
    size_t i;
    memset(first, 0, sizeof first);
    for (i = 0; i < n; i++) {
        size_t track = section < 2 ? keys[i].track : 0;
        if (first[track] == 0)
            first[track] = i + 1;
        keys[i].track = first[track] - 1;
    }
}

/* Where the test's two orders can both be had, they are the same. */
static void same_orders(size_t n, size_t kept)
{
    size_t told[MOST_PROPERTIES];
    if (n > MOST_PROPERTIES)
        return;
    expect_number("the test's own numbers", tidy_order(keys, n, told), kept);
    expect_bytes("the test's own orders", told, order, kept * sizeof *order);
}

/* A section of so many records whose keys have this shape. */
static void make_section(struct tidied *expected, struct take *t, int section, size_t n, shape key, naming name)
{
    size_t i, kept;
    for (i = 0; i < n; i++)
        keys[i] = key(i, n);
    append_u32(&large_file, (uint32_t)n);
    make_records(t, section, n, name);
    number_tracks(section, n);
    kept = tidy_order_of_many(keys, n, order);
    same_orders(n, kept);
    append_u32(&large_tidied, (uint32_t)kept);
    for (i = 0; i < kept; i++)
        append(&large_tidied, canonical.at + ends[order[i]], ends[order[i] + 1] - ends[order[i]]);
    expected->kept[section] = (uint32_t)kept;
    expected->dropped[section] = (uint32_t)(n - kept);
    expected->places = larger(expected->places, n);
    expected->exported += canonical.len;
}

static void begin_file(struct large *to, enum edition edition, const struct name *model, enum form form)
{
    static struct bytes header;
    header.len = 0;
    put_header_of(&header, edition, model, form);
    to->len = 0;
    append(to, header.at, header.len);
}

/* A take with so many records in each section, of the one edition and the other in turn. */
static struct tidied make_large(const size_t n[SECTIONS], shape key, naming name)
{
    static unsigned turn;
    static struct take t;
    struct tidied expected;
    int s;
    memset(&expected, 0, sizeof expected);
    t = distinct_take(8, 8, 8, 8, 8, 8, 8);
    begin_file(&large_file, turn++ % 2 ? OLDER : NEWER, &t.model, RAW);
    begin_file(&large_tidied, NEWER, &t.model, CANONICAL);
    expected.exported = large_tidied.len + 4 * SECTIONS;
    for (s = 0; s < SECTIONS; s++)
        make_section(&expected, &t, s, n[s], key, name);
    expected.file.at = large_tidied.at;
    expected.file.len = large_tidied.len;
    return expected;
}

/* Large files take long: one manner and the other in turn, an odd number of calls for each file. */
static enum manner in_turn(void)
{
    static unsigned turn;
    return turn++ % 2 ? STRICT : LENIENT;
}

static struct input input_of_large(void)
{
    struct input in;
    in.at = large_file.at;
    in.len = large_file.len;
    return in;
}

/* One byte short is the hard one: the kept records have to be counted, and nothing may have changed. */
static void try_large(const struct tidied *expected)
{
    struct input in = input_of_large();
    expect_enough(&in, expected);
    tidy_size_with(in_turn(), &in, expected->places, VMD_OK, expected);
    tidy_with(in_turn(), &in, expected->places, expected->file.len - 1, VMD_OUTPUT_TOO_SHORT, NULL);
    tidy_with(in_turn(), &in, expected->places, expected->file.len, VMD_OK, expected);
    tidy_with(in_turn(), &in, expected->places + 5, expected->exported + 1, VMD_OK, expected);
    tidy_with(in_turn(), &in, expected->places - 1, expected->file.len - 1, VMD_SCRATCH_TOO_SHORT, NULL);
    expect_written(expected->file.at, expected->file.len);
}

static void try_section(const char *name, int section, size_t records, shape key, naming names)
{
    size_t n[SECTIONS] = {0};
    struct tidied expected;
    n[section] = records;
    trial("%zu records of section %d, %s%s", records, section, name, names == remarked ? ", with remarks" : "");
    expected = make_large(n, key, names);
    try_large(&expected);
}

/* Around the numbers of places that an array for counting could have. */
static const size_t around[] = {16383, 16384, 16385, 32767, 32768, 32769, 40961, 49153};
enum { AROUND = sizeof around / sizeof *around };

/* Each shape of each number in one section, another one each time. */
static void many_frames(void)
{
    size_t k, l;
    for (k = 0; k < FRAME_SHAPES; k++)
        for (l = 0; l < AROUND; l++)
            try_section(frame_shapes[k].name, (int)((k + l) % SECTIONS), around[l], frame_shapes[k].key, plain);
}

/* More names than a cache of them has places. */
static void many_names(void)
{
    static const size_t numbers[] = {16385, 20001, 32769, 42000, 49153};
    size_t k, l;
    for (k = 0; k < NAME_SHAPES; k++)
        for (l = 0; l < sizeof numbers / sizeof *numbers; l++)
            try_section(name_shapes[k].name, (k + l) % 3 ? VMD_MORPHS : VMD_BONES, numbers[l], name_shapes[k].key, plain);
}

/* So many different frames, each of which some records have, so that the kept ones are around the same numbers. */
static size_t different;

static struct key of_different(size_t i, size_t n)
{
    (void)n;
    return keyed(shuffled(i % different), shuffled(i % different));
}

static void many_kept(void)
{
    size_t l;
    for (l = 0; l < AROUND; l++) {
        different = around[l];
        try_section("some frames again", VMD_SELF_SHADOWS, different + 3000, of_different, plain);
        try_section("some names again", VMD_MORPHS, different + 3000, of_different, plain);
    }
}

/* One track whose records have nearly all another name; as many tracks as above, and records again under another name. */
static void many_remarks(void)
{
    size_t k, l;
    for (k = 0; k < FRAME_SHAPES; k++)
        try_section(frame_shapes[k].name, k % 2 ? VMD_MORPHS : VMD_BONES, around[k % AROUND], frame_shapes[k].key, remarked);
    for (k = 0; k < NAME_SHAPES; k++)
        try_section(name_shapes[k].name, k % 2 ? VMD_MORPHS : VMD_BONES, k % 3 ? 49153 : 20001, name_shapes[k].key, remarked);
    for (l = 0; l < AROUND; l++) {
        different = around[l];
        try_section("some names again", l % 2 ? VMD_BONES : VMD_MORPHS, different + 3000, of_different, remarked);
    }
}

/* The sections have other numbers of records, the first one the most. */
static void try_every_section(const char *name, size_t records, shape key, naming names)
{
    size_t n[SECTIONS], s;
    struct tidied expected;
    for (s = 0; s < SECTIONS; s++)
        n[s] = records - smaller(s, records - 1);
    trial("%zu records of every section, %s%s", records, name, names == remarked ? ", with remarks" : "");
    expected = make_large(n, key, names);
    try_large(&expected);
}

/* Few records, where the test's orders are held to each other, some hundreds, and more than one pass counts. */
static void all_sections(void)
{
    static const size_t numbers[] = {1, 2, 3, 5, 9, 17, 33, MOST_PROPERTIES, 700, 3000};
    size_t k, l;
    for (l = 0; l < sizeof numbers / sizeof *numbers; l++) {
        for (k = 0; k < FRAME_SHAPES; k++) {
            try_every_section(frame_shapes[k].name, numbers[l], frame_shapes[k].key, plain);
            try_every_section(frame_shapes[k].name, numbers[l], frame_shapes[k].key, remarked);
        }
        for (k = 0; k < NAME_SHAPES; k++) {
            try_every_section(name_shapes[k].name, numbers[l], name_shapes[k].key, plain);
            try_every_section(name_shapes[k].name, numbers[l], name_shapes[k].key, remarked);
        }
    }
    try_every_section("any order", 16390, any_order, plain);
    try_every_section("few names", 20000, few_names, plain);
    try_every_section("few names", 20000, few_names, remarked);
}

/* ---- lists of names, with every byte and line feeds at every place */

static const struct field *listed;
static size_t tracks_listed[MOST_FIELDS];

static struct field of_list(size_t track, size_t i)
{
    (void)track;
    return listed[i];
}

static struct key list_at_one_frame(size_t i, size_t n)
{
    (void)n;
    return keyed(tracks_listed[i], 5);
}

static struct key list_at_three_frames(size_t i, size_t n)
{
    (void)n;
    return keyed(tracks_listed[i], 9 - i % 3);
}

/* As a section's names, and then what was written once more: it stays as it is. At one frame each track keeps one. */
static void try_listed(const char *what, int section, size_t records, size_t tracks, shape key)
{
    size_t n[SECTIONS] = {0};
    struct tidied expected, again;
    struct input in;
    trial("%s, section %d, %s", what, section, key == list_at_one_frame ? "one frame" : "three frames");
    n[section] = records;
    expected = make_large(n, key, of_list);
    if (key == list_at_one_frame)
        expect_number("the test's own tracks", expected.kept[section], tracks);
    in = input_of_large();
    try_tidy(&in, alike(VMD_OK), &expected);
    again = expected;
    again.exported = expected.file.len;
    again.places = expected.kept[section];
    again.dropped[section] = 0;
    try_tidy(&expected.file, alike(VMD_OK), &again);
}

/* In their order and turned round, so that other names are the first of their tracks. */
static void try_list(const char *what, const struct field *fields, size_t n, size_t tracks)
{
    static struct field turned[MOST_FIELDS];
    static struct name names[MOST_FIELDS];
    size_t i, turn;
    int s;
    for (i = 0; i < n; i++)
        turned[i] = fields[n - 1 - i];
    for (turn = 0; turn < 2; turn++) {
        listed = turn ? turned : fields;
        for (i = 0; i < n; i++) {
            names[i] = name_in(&listed[i]);
            for (tracks_listed[i] = 0; !same_track(&names[tracks_listed[i]], &names[i]); tracks_listed[i]++)
                ;
        }
        for (s = VMD_BONES; s <= VMD_MORPHS; s++) {
            try_listed(what, s, n, tracks, list_at_one_frame);
            try_listed(what, s, n, tracks, list_at_three_frames);
        }
    }
}

/* ---- the stack that a call takes: 512 KiB, as the header says */

enum { STACK = 1 << 20, STACK_TAKEN = 512 << 10 };

static ucontext_t here, there;
static enum manner called_in;
static size_t called_out_len; /* 0 for the size alone */
static uint32_t answer;

static void call(void)
{
    uint64_t length;
    uint32_t kept[SECTIONS], dropped[SECTIONS];
    answer = called_out_len == 0
        ? tidy_size_in(called_in, large_file.at, large_file.len, stood, MOST_PLACES, &length, kept, dropped)
        : tidy_in(called_in, large_file.at, large_file.len, stood, MOST_PLACES, canonical.at, called_out_len, &length, kept,
                  dropped);
}

static void call_on(uint8_t *stack)
{
    getcontext(&there);
    there.uc_stack.ss_sp = stack;
    there.uc_stack.ss_size = STACK;
    there.uc_link = &here;
    makecontext(&there, call, 0);
    swapcontext(&here, &there);
}

/* On a stack of its own, in which every byte is known before. */
static void try_stack(uint8_t *stack, size_t out_len, uint32_t number)
{
    for (called_in = STRICT; called_in < MANNERS; called_in++) {
        size_t left = 0;
        memset(stack, UNWRITTEN, STACK);
        called_out_len = out_len;
        call_on(stack);
        while (left < STACK && stack[left] == UNWRITTEN)
            left++;
        expect_number("answer", answer, number);
        expect(STACK - left <= STACK_TAKEN, "%zu bytes of stack", STACK - left);
    }
}

static void stack_taken(void)
{
    enum { GUARD = 65536 };
    uint8_t *room = mmap(NULL, GUARD + STACK, PROT_READ | PROT_WRITE, MAP_PRIVATE | MAP_ANONYMOUS, -1, 0);
    int s;
    if (room == MAP_FAILED || mprotect(room, GUARD, PROT_NONE) != 0) {
        perror("mmap");
        exit(2);
    }
    for (s = 0; s < SECTIONS; s++) {
        size_t n[SECTIONS] = {0};
        struct tidied expected;
        trial("the stack taken for section %d", s);
        n[s] = 40961;
        expected = make_large(n, names_again_equal, remarked);
        try_stack(room + GUARD, 0, VMD_OK);
        try_stack(room + GUARD, expected.file.len - 1, VMD_OUTPUT_TOO_SHORT);
        try_stack(room + GUARD, expected.file.len, VMD_OK);
        try_stack(room + GUARD, expected.exported, VMD_OK);
    }
}

int main(void)
{
    enum edition edition;
    tracks_told();
    remarks_told();
    properties_told();
    frames_told();
    names_told();
    other_takes();
    any_takes();
    for (edition = NEWER; edition < EDITIONS; edition++) {
        cut_anywhere(edition);
        damaged(edition);
    }
    laws();
    halves_with_remarks();
    each_list(try_list);
    all_sections();
    many_frames();
    many_names();
    many_kept();
    many_remarks();
    stack_taken();
    return finished("tidy");
}
