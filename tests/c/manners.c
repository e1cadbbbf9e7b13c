/*
 * The manners of reading, through the C interface: every call that reads a whole take, strict and lenient, over files that
 * the two tell apart and their neighbours; what each call gives, and in refusals that all that was lent is as it was.
 */
#include "canonical.h"
#include "check.h"
#include "damaged.h"
#include "excerpt.h"
#include "expect.h"
#include "manner.h"
#include "open.h"
#include "random.h"
#include "save.h"
#include "split.h"
#include "take.h"
#include "tidy.h"
#include "vmd.h"

/* ---- a file through every call, against what it means */

static struct bytes expected_bytes;
static size_t tried[18]; /* files by their strict number */

static void save(const struct sample *s)
{
    if (s->reads.in[LENIENT] != VMD_OK) {
        try_export_refused(&s->file, s->reads);
        try_older_refused(&s->file, s->reads, 4096);
        return;
    }
    encode(&expected_bytes, &s->means, CANONICAL);
    try_export(&s->file, s->reads, &expected_bytes);
    if (s->means.model.len > editions[OLDER].model_width) {
        try_older_refused(&s->file, then(s->reads, alike(VMD_MODEL_NAME_TOO_LONG)), expected_bytes.len - NARROWER);
        return;
    }
    encode_in(&expected_bytes, OLDER, &s->means, CANONICAL);
    try_older(&s->file, s->reads, &expected_bytes);
}

static void tidy(const struct sample *s)
{
    struct input in = input_of(&s->file);
    struct take means = s->means;
    struct tidied expected;
    if (s->reads.in[LENIENT] != VMD_OK) {
        try_tidy_refused(&in, s->reads);
        return;
    }
    expected = tidied_take(&means, &expected_bytes);
    try_tidy(&in, s->reads, &expected);
}

/* A frame of the crowded takes alone, and all frames. */
static void excerpt(const struct sample *s)
{
    try_excerpt_told(&s->file, range(7, 7), s->reads, &s->means);
    try_excerpt_told(&s->file, whole_range, s->reads, &s->means);
}

static void split(const struct sample *s)
{
    static struct parts expected;
    if (s->reads.in[LENIENT] != VMD_OK) {
        try_split_refused(&s->file, s->reads);
        return;
    }
    parts_of(&expected, &s->means);
    try_split_briefly(&s->file, s->reads, &expected);
}

static void join(const struct sample *first, const struct sample *second)
{
    struct reading reads = then(first->reads, second->reads);
    struct take both;
    if (reads.in[LENIENT] != VMD_OK) {
        try_join_refused(&first->file, &second->file, reads);
        return;
    }
    both = joined(&first->means, &second->means);
    encode(&expected_bytes, &both, CANONICAL);
    try_join(&first->file, &second->file, reads, &expected_bytes);
}

/* The joined model name asks for headers alone. */
static void joined_model(const struct sample *first, const struct sample *second)
{
    uint64_t of_first = first->means.model.len, of_second = second->means.model.len, part[3] = {0, 0, 0};
    if (of_first > 0)
        part[1] = MAGIC_FIELD, part[2] = of_first;
    else if (of_second > 0)
        part[0] = 1, part[1] = MAGIC_FIELD, part[2] = of_second;
    expect_joined_model(&first->file, &second->file, part);
}

/* Joined with itself, and before and after a file of each answer, of one edition and the other in turn. */
static void joins(const struct sample *s)
{
    static struct sample others[EDITIONS][ANSWERS];
    static unsigned turn;
    const struct sample *with = others[turn++ % EDITIONS];
    int k;
    if (others[NEWER][GOOD].file.len == 0) {
        make_each_answer(NEWER, others[NEWER]);
        make_each_answer(OLDER, others[OLDER]);
    }
    if (s->means.counts[VMD_PROPERTIES] <= MOST_PROPERTIES / 2)
        join(s, s);
    for (k = 0; k < ANSWERS; k++) {
        join(s, &with[k]);
        join(&with[k], s);
        if (s->reads.in[LENIENT] != VMD_OK || with[k].reads.in[LENIENT] != VMD_OK)
            continue;
        joined_model(s, &with[k]);
        joined_model(&with[k], s);
    }
}

static void every_call(const struct sample *s)
{
    static struct opening o;
    trial("%s", s->name);
    tried[s->reads.in[STRICT]]++;
    expect_reading("refusal", try_opening(s->file.at, s->file.len, &o), s->reads);
    save(s);
    tidy(s);
    excerpt(s);
    try_canonical_told(s);
    split(s);
    trial("joins with %s", s->name);
    joins(s);
}

static void damaged_files(void)
{
    enum edition edition;
    for (edition = NEWER; edition < EDITIONS; edition++)
        each_damaged(edition, RAW, every_call);
    expect_each_number(tried);
}

/* ---- every call into room enough: where the strict manner accepts a file, it leaves what the lenient one leaves */

/* The slots come first in the room, and what is written after them. */
enum { SLOTS = 20, ROOM = 640, ROOM_BYTES = 8 * ROOM };

struct asked {
    const uint8_t *file, *other;
    size_t len, other_len;
    uint64_t *room;
};

#define NUMBERS_AT(a, k) ((uint32_t *)(void *)((a)->room + (k)))
#define OUT(a) (uint8_t *)((a)->room + SLOTS), ROOM_BYTES - 8 * SLOTS

static uint32_t ask_parse(enum manner m, const struct asked *a)
{
    return parse_in(m, a->file, a->len, a->room + SLOTS, 40, NUMBERS_AT(a, 0), a->room + 3, a->room + 9);
}

static uint32_t ask_export_size(enum manner m, const struct asked *a)
{
    return export_size_in(m, a->file, a->len, a->room);
}

static uint32_t ask_export(enum manner m, const struct asked *a)
{
    return export_in(m, a->file, a->len, OUT(a), a->room);
}

static uint32_t ask_older_size(enum manner m, const struct asked *a)
{
    return older_size_in(m, a->file, a->len, a->room);
}

static uint32_t ask_older(enum manner m, const struct asked *a)
{
    return older_in(m, a->file, a->len, OUT(a), a->room);
}

static uint32_t ask_join_size_first(enum manner m, const struct asked *a)
{
    return join_size_in(m, a->file, a->len, a->other, a->other_len, a->room);
}

static uint32_t ask_join_size_second(enum manner m, const struct asked *a)
{
    return join_size_in(m, a->other, a->other_len, a->file, a->len, a->room);
}

static uint32_t ask_join_first(enum manner m, const struct asked *a)
{
    return join_in(m, a->file, a->len, a->other, a->other_len, OUT(a), a->room);
}

static uint32_t ask_join_second(enum manner m, const struct asked *a)
{
    return join_in(m, a->other, a->other_len, a->file, a->len, OUT(a), a->room);
}

static uint32_t ask_tidy_size(enum manner m, const struct asked *a)
{
    return tidy_size_in(m, a->file, a->len, a->room + SLOTS, 200, a->room, NUMBERS_AT(a, 1), NUMBERS_AT(a, 4));
}

static uint32_t ask_tidy(enum manner m, const struct asked *a)
{
    return tidy_in(m, a->file, a->len, a->room + SLOTS, 200, (uint8_t *)(a->room + SLOTS + 200),
                   ROOM_BYTES - 8 * (SLOTS + 200), a->room, NUMBERS_AT(a, 1), NUMBERS_AT(a, 4));
}

static uint32_t ask_excerpt_size(enum manner m, const struct asked *a)
{
    return excerpt_size_in(m, a->file, a->len, 1, 0x80000000, a->room);
}

static uint32_t ask_excerpt(enum manner m, const struct asked *a)
{
    return excerpt_in(m, a->file, a->len, 1, 0x80000000, OUT(a), a->room);
}

static uint32_t ask_is_canonical(enum manner m, const struct asked *a)
{
    return is_canonical_in(m, a->file, a->len, NUMBERS_AT(a, 0));
}

static uint32_t ask_first_change(enum manner m, const struct asked *a)
{
    return first_change_in(m, a->file, a->len, a->room);
}

static uint32_t ask_split_sizes(enum manner m, const struct asked *a)
{
    return split_sizes_in(m, a->file, a->len, a->room);
}

static uint32_t ask_split(enum manner m, const struct asked *a)
{
    void *p[BUFFERS];
    size_t n[BUFFERS], k;
    for (k = 0; k < BUFFERS; k++) {
        p[k] = a->room + SLOTS + 38 * k;
        n[k] = 8 * 38 / buffers[k].size;
    }
    return split_in(m, a->file, a->len, p, n, a->room);
}

static const struct {
    const char *name;
    uint32_t (*ask)(enum manner, const struct asked *);
} questions[] = {
    {"parse_animation", ask_parse},
    {"export_size", ask_export_size},
    {"export_animation", ask_export},
    {"export_older_size", ask_older_size},
    {"export_older_animation", ask_older},
    {"join_size, the first", ask_join_size_first},
    {"join_size, the second", ask_join_size_second},
    {"join_animations, the first", ask_join_first},
    {"join_animations, the second", ask_join_second},
    {"tidy_size", ask_tidy_size},
    {"tidy_animation", ask_tidy},
    {"excerpt_size", ask_excerpt_size},
    {"excerpt_animation", ask_excerpt},
    {"is_canonical", ask_is_canonical},
    {"first_change", ask_first_change},
    {"split_sizes", ask_split_sizes},
    {"split_animation_into_parts", ask_split},
};

enum { QUESTIONS = sizeof questions / sizeof *questions };

static int is_of_reading(uint32_t number)
{
    return number == VMD_ENDS_EARLY || number == VMD_MAGIC_DIFFERS || number == VMD_BYTES_OVER
        || number == VMD_COUNT_OVERSIZED;
}

/* Joined with one bone. What a call has to refuse after reading, as a name that is too long, it refuses in both manners. */
static void ask_all(const struct bytes *file, struct reading reads)
{
    static struct bytes other;
    static uint64_t room[MANNERS][ROOM];
    uint32_t numbers[MANNERS];
    size_t k;
    if (other.len == 0) {
        struct take t = distinct_take(3, 1, 0, 0, 0, 0, 0);
        encode(&other, &t, RAW);
    }
    for (k = 0; k < QUESTIONS; k++) {
        enum manner m;
        memset(room, UNWRITTEN, sizeof room);
        for (m = STRICT; m < MANNERS; m++) {
            struct asked a = {file->at, other.at, file->len, other.len, room[m]};
            numbers[m] = questions[k].ask(m, &a);
            if (numbers[m] != VMD_OK)
                expect_unwritten(questions[k].name, room[m], sizeof room[m]);
        }
        expect_number(questions[k].name, is_of_reading(numbers[LENIENT]) ? numbers[LENIENT] : VMD_OK, reads.in[LENIENT]);
        tried_in = ", strict";
        expect_number(questions[k].name, numbers[STRICT], first_of(reads.in[STRICT], numbers[LENIENT]));
        if (numbers[STRICT] == VMD_OK)
            expect_bytes(questions[k].name, room[STRICT], room[LENIENT], sizeof room[STRICT]);
    }
}

/* start,0,0,1, a byte over, and others, byte by byte: what every call answers. */
static void told_in_bytes(void)
{
    static const struct {
        uint8_t counts[25];
        size_t len;
        uint32_t strict;
    } rows[] = {
        {{0, 0, 0, 0, 0, 0, 0, 0, 1, 0, 0, 0}, 12, 17},
        {{0}, 24, 0},
        {{0}, 25, 16},
        {{0, 0, 0, 0, 0, 0, 0, 0, 0, 0, 0, 0, 1, 0, 0, 0, 0, 0, 0, 0, 0, 0, 0, 0, 0}, 25, 17},
        {{0}, 23, 1},
        {{0, 0, 0, 0, 0, 0, 0, 0, 0, 0, 0, 0, 0, 0, 0, 0, 0, 0, 0, 0, 1}, 25, 1},
    };
    size_t k, l;
    for (k = 0; k < sizeof rows / sizeof *rows; k++) {
        uint8_t file[75] = "Vocaloid Motion Data 0002", other[54] = "Vocaloid Motion Data file";
        uint32_t strict = rows[k].strict, lenient = strict == 1 ? 1 : 0;
        memcpy(file + 50, rows[k].counts, 25);
        trial("start and counts of row %zu", k);
        for (l = 0; l < QUESTIONS; l++) {
            static uint64_t room[ROOM];
            struct asked a = {file, other, 50 + rows[k].len, 44, room};
            expect_number(questions[l].name, questions[l].ask(STRICT, &a), strict);
            expect_number(questions[l].name, questions[l].ask(LENIENT, &a), lenient);
        }
    }
}

static void any_byte_changed(enum edition edition)
{
    static const uint8_t values[] = {0, 1, 2, 0x7F, 0x80, 0xFF};
    struct take t = distinct_take(4, 1, 1, 1, 1, 1, 2);
    static struct bytes b;
    static struct opening o;
    size_t n, k;
    encode_in(&b, edition, &t, RAW);
    for (n = 0; n < b.len; n++)
        for (k = 0; k < sizeof values; k++) {
            uint8_t kept = b.at[n];
            b.at[n] = values[k];
            trial("every call, byte %zu of the %s edition made %u", n, editions[edition].name, values[k]);
            ask_all(&b, expected_reading(b.at, b.len, &o));
            b.at[n] = kept;
        }
}

static void any_files(void)
{
    static struct bytes b;
    static struct opening o;
    size_t i, n;
    for (i = 0; i < 6000; i++) {
        struct take t = distinct_take(random_below(11), random_below(3), random_below(3), random_below(3), random_below(3),
                                      random_below(3), random_below(4));
        trial("random file %zu", i);
        encode_in(&b, random_below(2) ? OLDER : NEWER, &t, RAW);
        for (n = random_below(4); n > 0 && b.len > editions[OLDER].sections + 4; n--)
            spoil(&b);
        ask_all(&b, expected_reading(b.at, b.len, &o));
    }
}

/* ---- 11 comes last */

/*
 * Two files of 2,147,483,648 morphs have too many between them. They are 46 GiB that are mapped and not written, but for the
 * pages of the header and of what comes after the morphs; a join that is refused looks at no others.
 */
static const size_t morphs_end = 50 + 4 + 4 + ((size_t)23 << 31);

/* Null where the system does not let a program have so many addresses. */
static uint8_t *map_morphs(void)
{
    enum { PAGE = 65536 };
    struct name none = named("");
    struct bytes head;
    size_t last = morphs_end / PAGE * PAGE;
    uint8_t *at = mmap(NULL, last + 2 * PAGE, PROT_READ, MAP_PRIVATE | MAP_ANONYMOUS | MAP_NORESERVE, -1, 0);
    if (at == MAP_FAILED || mprotect(at, PAGE, PROT_READ | PROT_WRITE) != 0
        || mprotect(at + last, 2 * PAGE, PROT_READ | PROT_WRITE) != 0)
        return NULL;
    head.len = 0;
    put_header(&head, &none, CANONICAL);
    put_u32(&head, 0);
    put_u32(&head, 0x80000000);
    memcpy(at, head.at, head.len);
    return at;
}

static void try_too_many(const uint8_t *file, size_t first_len, size_t second_len, struct reading reads)
{
    struct reading numbers = then(reads, alike(VMD_COUNT_TOO_LARGE));
    enum manner m;
    for (m = STRICT; m < MANNERS; m++) {
        uint64_t *slot = lend_unwritten(&lent_written, sizeof *slot);
        uint8_t *out = lend_unwritten(&lent_out, 100);
        expect_number("join_size", join_size_in(m, file, first_len, file, second_len, slot), numbers.in[m]);
        expect_number("join", join_in(m, file, first_len, file, second_len, out, 100, slot), numbers.in[m]);
        expect_number("join", join_in(m, file, first_len, file, second_len, NULL, 0, slot), numbers.in[m]);
        expect_lent_unwritten("output", &lent_out);
        expect_lent_unwritten("slot", &lent_written);
    }
}

static void too_many_records(void)
{
    static const struct {
        const char *name;
        uint8_t after[17]; /* the morphs */
        size_t len;
        struct reading reads;
    } rows[] = {
        {"nothing more", {0}, 0, {{0, 0}}},
        {"four counts", {0}, 16, {{0, 0}}},
        {"four counts and a byte over", {0}, 17, {{16, 0}}},
        {"a byte", {0}, 1, {{1, 1}}},
        {"a camera count that is too large", {1}, 4, {{17, 0}}},
        {"a light count that is too large", {0, 0, 0, 0, 0xFF, 0xFF, 0xFF, 0xFF}, 17, {{17, 0}}},
        {"a self-shadow count that is too large", {0, 0, 0, 0, 0, 0, 0, 0, 1}, 16, {{17, 0}}},
        {"a property count that is too large", {0, 0, 0, 0, 0, 0, 0, 0, 0, 0, 0, 0, 1}, 17, {{1, 1}}},
    };
    uint8_t *file = map_morphs();
    size_t k;
    if (file == NULL) {
        perror("manners: not tried: 16 and 17 before 11: mmap");
        return;
    }
    for (k = 0; k < sizeof rows / sizeof *rows; k++) {
        size_t len = morphs_end + rows[k].len;
        memcpy(file + morphs_end, rows[k].after, sizeof rows[k].after);
        trial("2,147,483,648 morphs and %s", rows[k].name);
        try_too_many(file, len, morphs_end, rows[k].reads);
        try_too_many(file, morphs_end, len, rows[k].reads);
        try_too_many(file, len, len, rows[k].reads);
    }
}

int main(void)
{
    enum edition edition;
    told_in_bytes();
    damaged_files();
    for (edition = NEWER; edition < EDITIONS; edition++)
        any_byte_changed(edition);
    any_files();
    too_many_records();
    return finished("manners");
}
