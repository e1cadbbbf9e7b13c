/*
 * Property frames through the C interface: the scratch's places, one for each sixteen frames; the walk from there to a frame
 * and its IK states; the frame at a place of the file.
 */
#include "check.h"
#include "expect.h"
#include "fetch.h"
#include "open.h"
#include "readback.h"
#include "vmd.h"

enum { LONGEST = 70 };

static struct fence lent_next;

/* ---- takes of many property frames */

/* How many IK states the frames have; mixed numbers do not come again after sixteen frames. */
enum pattern { NONE, ONE, FOUR, MIXED, PATTERNS };

static size_t states_in(enum pattern pattern, size_t i)
{
    switch (pattern) {
    case NONE: return 0;
    case ONE: return 1;
    case FOUR: return 4;
    default: return (i * i / 3 + i / PER_PLACE) % 5;
    }
}

/* A record in each other section, and so many property frames, no two at one frame. */
static struct take frames_take(size_t n, enum pattern pattern)
{
    struct take t = distinct_take(5, 1, 1, 1, 1, 1, n);
    size_t i, j;
    for (i = 0; i < n; i++) {
        struct property *p = &t.properties[i];
        p->frame = (uint32_t)(0x1020408 * (i + 1));
        p->n_states = states_in(pattern, i);
        for (j = 0; j < p->n_states; j++) {
            p->states[j].name = next_name((i + 7 * j) % 21);
            p->states[j].enabled = (uint8_t)((i + j) % 3);
        }
    }
    return t;
}

/* Such a take's file, and its opening. */
static struct take opened_frames(enum edition edition, size_t n, enum pattern pattern, struct bytes *b, struct opening *o)
{
    struct take t = frames_take(n, pattern);
    encode_in(b, edition, &t, RAW);
    expect_reading("the test's own file", expected_reading(b->at, b->len, o), alike(VMD_OK));
    return t;
}

/* ---- fetching them */

/* A file with an opening, its own or another's, lent. */
static struct view lend_opened(const uint8_t *file, size_t len, const struct opening *o)
{
    return lend_view(file, len, o->counts, o->places, o->scratch, o->n_places);
}

static void expect_opened(const uint8_t *file, size_t len, const struct opening *o)
{
    expect_view(file, len, o->counts, o->places, o->scratch, o->n_places);
}

/* Every frame below n, with one IK state more than a frame of these takes has. */
static void fetch_frames(const struct view *v, size_t n)
{
    size_t i, j;
    for (i = 0; i < n; i++) {
        fetch_property(v, i);
        for (j = 0; j <= MOST_STATES; j++)
            fetch_state(v, i, j);
    }
}

static void try_frames_below(size_t n, const uint8_t *file, size_t len, const struct opening *o)
{
    struct view v = lend_opened(file, len, o);
    fetch_frames(&v, n);
    expect_opened(file, len, o);
}

/* The answer to a frame's number, told by the caller, so that expect.h is held to it too. */
static void expect_answer(const struct view *v, size_t i, uint32_t number)
{
    uint32_t record[3];
    expect(vmd_property_frame(VIEW(v), SCRATCH(v), i, record) == number, "frame %zu: expected %u", i, number);
}

/* ---- opening */

/* A sixteenth of the frames, rounded up: with one place less it is 3. The strict manner meets a byte over before that. */
static void places_needed(enum edition edition)
{
    static const struct {
        size_t frames, places;
    } rows[] = {
        {0, 0}, {1, 1}, {2, 1}, {15, 1}, {16, 1}, {17, 2}, {31, 2}, {32, 2}, {33, 3}, {47, 3}, {48, 3}, {49, 4}, {64, 4},
        {65, 5}, {70, 5},
    };
    enum pattern pattern;
    enum manner m;
    size_t k, n;
    for (k = 0; k < sizeof rows / sizeof *rows; k++)
        for (pattern = NONE; pattern < PATTERNS; pattern++) {
            struct bytes b;
            struct opening o;
            opened_frames(edition, rows[k].frames, pattern, &b, &o);
            put_byte(&b, 0);
            for (n = 0; n <= rows[k].places + 2; n++) {
                uint32_t number = n < rows[k].places ? VMD_SCRATCH_TOO_SHORT : VMD_OK;
                trial("%zu property frames and %zu places, pattern %u, %s edition", rows[k].frames, n, pattern,
                      editions[edition].name);
                expect_number("places expected", o.n_places, rows[k].places);
                for (m = STRICT; m < MANNERS; m++) {
                    open_with(m, b.at, b.len - 1, n, number, &o);
                    open_with(m, b.at, b.len, n, m == STRICT ? VMD_BYTES_OVER : number, &o);
                }
            }
        }
}

/* Cut in a later frame: 1, whatever the scratch, of which nothing is written. */
static void cut_before_short(enum edition edition)
{
    struct bytes b;
    struct opening o;
    enum manner m;
    size_t n;
    opened_frames(edition, 40, MIXED, &b, &o);
    for (n = 0; n < 5; n++) {
        trial("40 property frames less a byte and %zu places, %s edition", n, editions[edition].name);
        for (m = STRICT; m < MANNERS; m++)
            open_with(m, b.at, b.len - 1, n, VMD_ENDS_EARLY, &o);
    }
}

/* ---- a file with its own opening */

static void every_frame(enum edition edition)
{
    enum pattern pattern;
    size_t n;
    for (n = 0; n <= LONGEST; n++)
        for (pattern = NONE; pattern < PATTERNS; pattern++) {
            struct bytes b;
            struct opening o;
            struct take t = opened_frames(edition, n, pattern, &b, &o);
            trial("every one of %zu property frames, pattern %u, %s edition", n, pattern, editions[edition].name);
            field_by_field(&t, b.at, b.len);
            try_opening(b.at, b.len, &o);
            try_frames_below(n + PER_PLACE + 1, b.at, b.len, &o);
        }
}

/* Frames of more IK states than one byte can count. */
static void many_states(void)
{
    static const size_t states[] = {0, 255, 256, 257, 300, 1};
    enum { FRAMES = 3 * sizeof states / sizeof *states };
    struct take none = empty_take();
    struct bytes b;
    struct opening o;
    struct view v;
    size_t i, j;
    encode(&b, &none, CANONICAL);
    b.len -= 4;
    put_u32(&b, FRAMES);
    for (i = 0; i < FRAMES; i++) {
        put_u32(&b, (uint32_t)i);
        put_byte(&b, 1);
        put_u32(&b, (uint32_t)states[i / 3]);
        for (j = 0; j < states[i / 3]; j++) {
            struct name name = next_name(j % 21);
            put_name(&b, &name, 20, RAW);
            put_byte(&b, j & 1);
        }
    }
    trial("frames of up to 300 IK states");
    expect_reading("refusal", try_opening(b.at, b.len, &o), alike(VMD_OK));
    v = lend_opened(b.at, b.len, &o);
    for (i = 0; i <= FRAMES; i++) {
        fetch_property(&v, i);
        for (j = 0; j < 302; j++)
            fetch_state(&v, i, j);
    }
    expect_opened(b.at, b.len, &o);
}

/* ---- a file with another's opening or scratch */

/* Frames whose place the scratch has are found, and no others. */
static void scratch_lengths(enum edition edition)
{
    struct bytes b;
    struct opening o;
    size_t n, i;
    opened_frames(edition, LONGEST, MIXED, &b, &o);
    for (n = 0; n <= 5; n++) {
        struct view v;
        o.n_places = n;
        v = lend_opened(b.at, b.len, &o);
        trial("%d property frames and a scratch of %zu places, %s edition", LONGEST, n, editions[edition].name);
        for (i = 0; i < LONGEST; i++)
            expect_answer(&v, i, i < 16 * n ? VMD_OK : VMD_OUTSIDE);
        fetch_frames(&v, LONGEST + PER_PLACE);
        expect_opened(b.at, b.len, &o);
    }
}

/* The opening and the scratch of a file with as many frames or more, but other IK states. */
static void openings_of_another(enum edition edition)
{
    enum pattern pattern, other;
    for (pattern = NONE; pattern < PATTERNS; pattern++)
        for (other = NONE; other < PATTERNS; other++) {
            struct bytes b, c;
            struct opening o, p;
            opened_frames(edition, 50, pattern, &b, &o);
            opened_frames(edition, 50 + 10 * (other & 1), other, &c, &p);
            trial("frames of pattern %u with an opening of pattern %u, %s edition", pattern, other, editions[edition].name);
            try_frames_below(70, b.at, b.len, &p);
            try_frames_below(70, c.at, c.len, &o);
        }
}

/* The counts alone are another's: fewer frames, and more of them than there are. */
static void other_counts(enum edition edition)
{
    static const uint32_t numbers[] = {0, 1, 15, 16, 17, 40, 41, 48, 0xFFFFFFFF};
    struct bytes b;
    struct opening o;
    size_t k;
    opened_frames(edition, 40, MIXED, &b, &o);
    for (k = 0; k < sizeof numbers / sizeof *numbers; k++) {
        o.counts[5] = numbers[k];
        trial("40 property frames and a count of %u, %s edition", numbers[k], editions[edition].name);
        try_frames_below(60, b.at, b.len, &o);
    }
}

/*
 * The file ends in frame k, before its nine bytes are whole or before its IK states are: frames before it are found, frame k
 * where its nine bytes are there, and none after it, whose walk would go over it or whose place is outside.
 */
static void walks_cut_short(enum edition edition)
{
    struct bytes b;
    struct opening o;
    size_t k, n, i;
    opened_frames(edition, 20, MIXED, &b, &o);
    for (k = 0; k < 20; k++)
        for (n = o.frames[k]; n < (k < 19 ? o.frames[k + 1] : b.len); n++) {
            struct view v = lend_opened(b.at, n, &o);
            trial("20 property frames cut in frame %zu after %zu bytes, %s edition", k, n, editions[edition].name);
            for (i = 0; i < 20; i++)
                expect_answer(&v, i, i < k || (i == k && n - o.frames[k] >= 9) ? VMD_OK : VMD_OUTSIDE);
            fetch_frames(&v, 22);
            expect_opened(b.at, n, &o);
        }
}

/*
 * Frame k counts more IK states than the file has: it is found itself, and no frame whose walk would go over it; frames of
 * another place are found.
 */
static void walks_past_the_end(enum edition edition)
{
    /* the last two times 21 are 17 and 1 where only 32 bits are kept */
    static const uint32_t numbers[] = {100000, 0x7FFFFFFF, 0x80000000, 0xFFFFFFFF, 204522253, 1022611261};
    struct bytes b;
    struct opening o;
    size_t k, l, i;
    opened_frames(edition, 40, MIXED, &b, &o);
    for (k = 0; k < 40; k++)
        for (l = 0; l < sizeof numbers / sizeof *numbers; l++) {
            struct bytes changed = b;
            struct view v;
            changed.len = o.frames[k] + 5;
            put_u32(&changed, numbers[l]);
            changed.len = b.len;
            v = lend_opened(changed.at, b.len, &o);
            trial("frame %zu of 40 with %u IK states, %s edition", k, numbers[l], editions[edition].name);
            for (i = 0; i < 40; i++)
                expect_answer(&v, i, i / 16 == k / 16 && i > k ? VMD_OUTSIDE : VMD_OK);
            fetch_frames(&v, 42);
            fetch_state(&v, k, (b.len - o.frames[k] - 9) / 21 - 1);
            fetch_state(&v, k, (b.len - o.frames[k] - 9) / 21);
            fetch_state(&v, k, numbers[l] - 1);
            expect_opened(changed.at, b.len, &o);
        }
}

/* Frame k counts one IK state more or less than it has: the walk goes on where no frame begins, or leaves the file. */
static void walks_astray(enum edition edition)
{
    struct bytes b;
    struct opening o;
    size_t k;
    opened_frames(edition, 40, ONE, &b, &o);
    for (k = 0; k < 40; k++) {
        struct bytes changed = b;
        trial("frame %zu of 40 with an IK state less, %s edition", k, editions[edition].name);
        changed.at[o.frames[k] + 5] = 0;
        try_frames_below(42, changed.at, b.len, &o);
        trial("frame %zu of 40 with an IK state more, %s edition", k, editions[edition].name);
        changed.at[o.frames[k] + 5] = 2;
        try_frames_below(42, changed.at, b.len, &o);
    }
}

/* Each place of the scratch anywhere: at every byte of the file, past its end, and near where a sum would wrap. */
static void places_anywhere(enum edition edition)
{
    struct bytes b;
    struct opening o;
    uint64_t place, far[] = {UINT64_MAX, UINT64_MAX - 1, UINT64_MAX - 7, UINT64_MAX - 8, UINT64_MAX - 9, UINT64_MAX - 29,
                             UINT64_MAX - 30, 0x8000000000000000, 0x7FFFFFFFFFFFFFFF, 0x100000000, 0};
    size_t k, n_far = sizeof far / sizeof *far;
    opened_frames(edition, 33, MIXED, &b, &o);
    far[n_far - 1] = 0x100000000 + o.frames[0];
    o.counts[5] = 0xFFFFFFFF;
    for (k = 0; k < b.len + 12 + n_far; k++) {
        place = k < b.len + 12 ? k : far[k - b.len - 12];
        trial("a property frame at %llu of %zu bytes, %s edition", (unsigned long long)place, b.len, editions[edition].name);
        o.scratch[k % 3] = place;
        try_frames_below(50, b.at, b.len, &o);
        o.scratch[k % 3] = o.frames[16 * (k % 3)];
    }
}

/* The bytes before the file read as frames too: a place whose sum would wrap round to the file is outside all the same. */
static void sums_that_wrap(void)
{
    static const uint8_t zeros[400];
    static const uint32_t counts[6] = {0, 0, 0, 0, 0, 0xFFFFFFFF};
    static const uint64_t places[6];
    struct view v;
    uint64_t scratch[1] = {0}, before;
    size_t i;
    v = lend_view(zeros, sizeof zeros, counts, places, scratch, 1);
    v.file += 200;
    v.len -= 200;
    v.scratch = scratch;
    for (before = 1; before <= 200; before++) {
        trial("a place %llu below 0", (unsigned long long)before);
        scratch[0] = 0 - before;
        for (i = 0; i < PER_PLACE; i++)
            expect_answer(&v, i, VMD_OUTSIDE);
        fetch_frames(&v, PER_PLACE);
        expect(scratch[0] == 0 - before, "the scratch has changed");
    }
    trial("a place of 0, with bytes before the file");
    scratch[0] = 0;
    fetch_frames(&v, PER_PLACE);
    expect_lent("file", &lent_file, zeros, sizeof zeros);
}

/* Places and frames with numbers of more than 16 bits: the frame asked for is reached from its own place. */
static void far_frames(void)
{
    enum { PLACES = 65000 };
    static const size_t told[] = {0, 1, 255, 256, 257, 4095, 4096, 4097, 32768, PLACES - 1};
    static uint64_t scratch[PLACES];
    struct bytes b;
    struct opening o;
    struct view v;
    size_t k, i, n = sizeof told / sizeof *told;
    opened_frames(NEWER, 60, MIXED, &b, &o);
    for (k = 0; k < PLACES; k++)
        scratch[k] = UINT64_MAX;
    for (k = 0; k < n; k++)
        scratch[told[k]] = o.frames[4 * k];
    o.counts[5] = 0xFFFFFFFF;
    v = lend_view(b.at, b.len, o.counts, o.places, scratch, PLACES);
    for (k = 0; k < n; k++)
        for (i = PER_PLACE * told[k]; i < PER_PLACE * (told[k] + 1); i++) {
            trial("frame %zu, from place %zu", i, told[k]);
            expect_answer(&v, i, VMD_OK);
            fetch_property(&v, i);
            fetch_state(&v, i, 0);
        }
    for (k = 0; k < n; k++) {
        trial("a frame of the place after %zu", told[k]);
        fetch_property(&v, PER_PLACE * (told[k] + 1));
    }
    trial("frames past the scratch");
    for (i = PER_PLACE * PLACES; i < PER_PLACE * (PLACES + 2); i++)
        expect_answer(&v, i, VMD_OUTSIDE);
    expect_answer(&v, 0xFFFFFFFE, VMD_OUTSIDE);
    expect_answer(&v, 0x100000000, VMD_OUTSIDE);
    expect_answer(&v, SIZE_MAX, VMD_OUTSIDE);
}

/* ---- the frame at a place */

static void fetch_at(const uint8_t *file, size_t len, uint64_t place)
{
    uint64_t end = property_end(file, len, place), *next = lend_unwritten(&lent_next, sizeof *next);
    const uint8_t *r = end == 0 ? NULL : file + place;
    uint32_t record[3] = {0}, number;
    if (r != NULL)
        property_fields(r, record);
    number = vmd_property_frame_at(file, len, place, lend_unwritten(&lent_slot, sizeof record), next);
    expect_fetched("property_frame_at", number, r, record, sizeof record);
    if (r == NULL)
        expect_lent_unwritten("next", &lent_next);
    else
        expect_lent("next", &lent_next, &end, sizeof end);
}

/* At every place of a file and just past it, and far away. */
static void fetch_at_any_place(const uint8_t *file, size_t len)
{
    const uint8_t *f = lend(&lent_file, file, len);
    uint64_t k;
    for (k = 0; k <= len + 40; k++)
        fetch_at(f, len, k);
    for (k = 1; k <= 70; k++) {
        fetch_at(f, len, 0 - k);
        fetch_at(f, len, 0x7FFFFFFFFFFFFFFF + k - 35);
        fetch_at(f, len, 0x100000000 + k);
    }
    expect_lent("file", &lent_file, file, len);
}

/* Whole files, files cut in every frame, and frames that count more IK states than there are. */
static void any_place(enum edition edition)
{
    static const uint32_t numbers[] = {1, 20, 0x80000000, 0xFFFFFFFF, 204522253};
    struct bytes b;
    struct opening o;
    enum pattern pattern;
    size_t k, n;
    for (pattern = NONE; pattern < PATTERNS; pattern++) {
        opened_frames(edition, LONGEST, pattern, &b, &o);
        trial("a frame at any place of %d frames, pattern %u, %s edition", LONGEST, pattern, editions[edition].name);
        fetch_at_any_place(b.at, b.len);
    }
    opened_frames(edition, 12, MIXED, &b, &o);
    for (n = 0; n < b.len; n++) {
        trial("a frame at any place of the first %zu of %zu bytes, %s edition", n, b.len, editions[edition].name);
        fetch_at_any_place(b.at, n);
    }
    for (k = 0; k < sizeof numbers / sizeof *numbers; k++) {
        struct bytes changed = b;
        changed.len = o.frames[6] + 5;
        put_u32(&changed, numbers[k]);
        trial("a frame at any place, one with %u IK states, %s edition", numbers[k], editions[edition].name);
        fetch_at_any_place(changed.at, b.len);
    }
}

/* The call asks for no header: any bytes at all. */
static void any_bytes(void)
{
    static uint8_t bytes[400];
    size_t n;
    memset(bytes, 0, sizeof bytes);
    trial("a frame at any place of zeros");
    for (n = 0; n <= 30; n++)
        fetch_at_any_place(bytes, n);
    fetch_at_any_place(bytes, sizeof bytes);
    memset(bytes, 1, sizeof bytes);
    trial("a frame at any place of bytes 1");
    fetch_at_any_place(bytes, sizeof bytes);
    memset(bytes, 0xFF, sizeof bytes);
    trial("a frame at any place of bytes 255");
    fetch_at_any_place(bytes, sizeof bytes);
    for (n = 0; n < sizeof bytes; n++)
        bytes[n] = (uint8_t)(n % 3 == 0 ? next_byte() : 0);
    trial("a frame at any place of any bytes");
    fetch_at_any_place(bytes, sizeof bytes);
}

/* A place below 0, and zeros before the file. */
static void places_that_wrap(void)
{
    static const uint8_t zeros[400];
    const uint8_t *f = lend(&lent_file, zeros, sizeof zeros);
    uint64_t before;
    for (before = 1; before <= 200; before++) {
        trial("the frame at a place %llu below 0", (unsigned long long)before);
        fetch_at(f + 200, sizeof zeros - 200, 0 - before);
    }
}

/* The IK states of the frame at a place: those of frame 0, with a count of one frame and a scratch of one place. */
static void states_at(const uint8_t *file, size_t len, uint64_t place, const struct property *p)
{
    static const uint32_t counts[6] = {0, 0, 0, 0, 0, 1};
    static const uint64_t places[6];
    uint32_t enabled;
    uint64_t part[2];
    struct view v;
    size_t j;
    v = lend_view(file, len, counts, places, &place, 1);
    for (j = 0; j < p->n_states; j++) {
        expect_number("IK state", vmd_ik_state(VIEW(&v), SCRATCH(&v), 0, j, &enabled), VMD_OK);
        expect_number("IK enabled", enabled, p->states[j].enabled != 0);
        vmd_ik_name(VIEW(&v), SCRATCH(&v), 0, j, part);
        expect_name("IK name", v.file, part, &p->states[j].name);
        fetch_state(&v, 0, j);
    }
    fetch_state(&v, 0, p->n_states);
    expect_answer(&v, 1, VMD_OUTSIDE);
    expect_view(file, len, counts, places, &place, 1);
}

/* From the properties' place on, one frame after another: the take's, up to the end of its properties, bytes over or not. */
static void walk_by_place(const struct take *t, const uint8_t *file, size_t len, uint64_t end)
{
    struct opening o;
    uint64_t at, next = 0;
    size_t i;
    expect_reading("the test's own file", expected_reading(file, len, &o),
                   reading(end < len ? VMD_BYTES_OVER : VMD_OK, VMD_OK));
    at = o.places[VMD_PROPERTIES];
    for (i = 0; i < t->counts[5]; i++, at = next) {
        const struct property *p = &t->properties[i];
        uint32_t record[3] = {0};
        expect_number("property_frame_at", vmd_property_frame_at(file, len, at, record, &next), VMD_OK);
        expect_number("property's frame", record[0], p->frame);
        expect_number("property's visible", record[1], p->visible != 0);
        expect_number("property's IK count", record[2], p->n_states);
        states_at(file, len, at, p);
    }
    expect_number("the end of the properties", at, end);
}

static void one_after_another(enum edition edition)
{
    static const size_t over[] = {0, 1, 30};
    enum pattern pattern;
    size_t n, k;
    for (n = 0; n <= LONGEST; n++)
        for (pattern = NONE; pattern < PATTERNS; pattern++) {
            struct take t = frames_take(n, pattern);
            struct bytes b;
            for (k = 0; k < sizeof over / sizeof *over; k++) {
                encode_in(&b, edition, &t, RAW);
                put(&b, b.at, over[k]);
                trial("%zu frames one after another, pattern %u, %zu bytes over, %s edition", n, pattern, over[k],
                      editions[edition].name);
                walk_by_place(&t, b.at, b.len, b.len - over[k]);
            }
        }
}

int main(void)
{
    enum edition edition;
    for (edition = NEWER; edition < EDITIONS; edition++) {
        places_needed(edition);
        cut_before_short(edition);
        every_frame(edition);
        scratch_lengths(edition);
        openings_of_another(edition);
        other_counts(edition);
        walks_cut_short(edition);
        walks_past_the_end(edition);
        walks_astray(edition);
        places_anywhere(edition);
        any_place(edition);
        one_after_another(edition);
    }
    many_states();
    sums_that_wrap();
    far_frames();
    any_bytes();
    places_that_wrap();
    return finished("properties");
}
