/*
 * Whether a file is canonical, and what saving would touch first, through the C interface, in both manners.
 *
 * The answer is told by what was done to a file: a canonical one, from the test's own encoder, is changed where request l) asks
 * something of a byte, and where it does not. It is then held against the request's words, byte by byte, and against the
 * library's export (canonical.h).
 *
 * Not tried: places above 4,294,967,295.
 */
#include "canonical.h"
#include "check.h"
#include "damaged.h"
#include "excerpt.h"
#include "expect.h"
#include "manner.h"
#include "parts.h"
#include "random.h"
#include "split.h"
#include "take.h"
#include "vmd.h"

/* ---- what each byte of a canonical file is, and of which the request asks something */

enum kind { MAGIC, SPARE, NAME, COUNT, FLAG, OTHER };

static struct bytes file;
static uint8_t kinds[sizeof file.at];
static uint32_t numbers[sizeof file.at]; /* of the record; an IK state has its own over all frames */
static size_t marked;

static void mark(enum kind kind, size_t n, uint32_t number)
{
    for (; n > 0; n--, marked++) {
        kinds[marked] = (uint8_t)kind;
        numbers[marked] = number;
    }
}

/* The file is whole. No two fields of names stand side by side. */
static void mark_file(void)
{
    static const struct {
        enum kind kind;
        size_t n;
    } parts[SECTIONS][3] = {
        {{NAME, 15}, {OTHER, 96}}, {{NAME, 15}, {OTHER, 8}}, {{OTHER, 60}, {FLAG, 1}},
        {{OTHER, 28}},             {{OTHER, 9}},             {{OTHER, 4}, {FLAG, 1}, {COUNT, 4}},
    };
    uint32_t i, j, k, n, states = 0;
    int s;
    marked = 0;
    mark(MAGIC, MAGIC_TOLD, 0);
    mark(SPARE, MAGIC_FIELD - MAGIC_TOLD, 0);
    mark(NAME, 20, 0);
    for (s = 0; s < SECTIONS; s++) {
        n = u32_at(file.at + marked);
        mark(COUNT, 4, 0);
        for (i = 0; i < n; i++) {
            for (k = 0; k < 3; k++)
                mark(parts[s][k].kind, parts[s][k].n, i);
            for (j = s == VMD_PROPERTIES ? u32_at(file.at + marked - 4) : 0; j > 0; j--, states++) {
                mark(NAME, 20, states);
                mark(FLAG, 1, states);
            }
        }
    }
    expect_number("the test's own length", marked, file.len);
}

/* Behind the zero that ends a name, in its field. */
static int is_after_name(size_t at)
{
    while (kinds[at] == NAME)
        if (kinds[--at] == NAME && file.at[at] == 0)
            return 1;
    return 0;
}

/* "[..] bytes 26 to 29 zero [..] zeros after every name, every flag 0 or 1 [..]" */
static int is_asked(size_t at)
{
    return kinds[at] == SPARE || kinds[at] == FLAG || is_after_name(at);
}

/* The first byte that is otherwise. */
static size_t first_otherwise(void)
{
    size_t at;
    for (at = 0; at < file.len; at++)
        if (file.at[at] > (kinds[at] == FLAG) && is_asked(at))
            return at;
    return UNCHANGED;
}

/* ---- a whole file of the newer edition, and one of its bytes made another */

static char file_name[64];

static void name_file(const char *name, ...)
{
    va_list values;
    va_start(values, name);
    vsnprintf(file_name, sizeof file_name, name, values);
    va_end(values);
    trial("%s", file_name);
}

/* As it is, saving would touch this place first. */
static void try_file(size_t place)
{
    expect_number("the first byte that is otherwise", first_otherwise(), place);
    try_canonical(file.at, file.len, alike(VMD_OK), place);
}

static void try_byte(size_t at, unsigned value, size_t place)
{
    uint8_t kept = file.at[at];
    trial("%s, byte %zu made %u", file_name, at, value);
    file.at[at] = (uint8_t)value;
    try_file(place);
    file.at[at] = kept;
}

/* A canonical file, and it is one. */
static void begin(const struct take *t, const char *name)
{
    encode(&file, t, CANONICAL);
    mark_file();
    name_file("%s", name);
    try_file(UNCHANGED);
}

/* Any bytes, against the test's own reading and export of them: how they are read, and the place. */
static struct reading try_bytes(const struct bytes *b, size_t *place)
{
    static struct bytes exported;
    static struct opening o;
    struct reading reads = expected_reading(b->at, b->len, &o);
    *place = UNCHANGED;
    if (reads.in[LENIENT] == VMD_OK) {
        put_excerpt(&exported, b, &o, whole_range);
        *place = first_difference(b->at, b->len, exported.at, exported.len);
    }
    try_canonical(b->at, b->len, reads, *place);
    return reads;
}

/* ---- request l)'s words, told in numbers */

static void told_in_numbers(void)
{
    static const char whole[] =
        "Vocaloid Motion Data 0002\0" "\0\0\0\0"
        "name\0\0\0\0\0\0\0\0\0\0\0\0\0\0\0\0"
        "\0\0\0\0"
        "\1\0\0\0" "smile\0\0\0\0\0\0\0\0\0\0" "\x0A\0\0\0" "ABCD"
        "\1\0\0\0" "\x0A\0\0\0" "seven floats: twenty-eight b" "interpolation, 24 bytes." "\x1E\0\0\0" "\0"
        "\0\0\0\0"
        "\1\0\0\0" "\x0A\0\0\0\2IJKL"
        "\1\0\0\0" "\x0A\0\0\0\1\1\0\0\0" "leg\0\0\0\0\0\0\0\0\0\0\0\0\0\0\0\0\0" "\1";
    static const struct {
        size_t at;
        unsigned value;
        size_t place;
    } rows[] = {
        {26, 0, UNCHANGED}, {26, 1, 26}, {27, 0x80, 27}, {28, 0xFF, 28}, {29, 1, 29}, /* bytes 26 to 29 */
        {30, 'N', UNCHANGED}, {33, 0, UNCHANGED}, {31, 0, 32}, {34, 's', UNCHANGED}, {35, 's', 35}, {49, 1, 49}, /* model */
        {58, 0, 59}, {62, 0, UNCHANGED}, {63, 's', UNCHANGED}, {64, 's', 64}, {72, 1, 72}, /* a morph's name */
        {73, 0xFF, UNCHANGED}, {76, 0x80, UNCHANGED}, {77, 0, UNCHANGED}, {80, 0xFF, UNCHANGED}, /* its frame and weight */
        {85, 0, UNCHANGED}, {144, 0xFF, UNCHANGED}, {145, 1, UNCHANGED}, {145, 2, 145}, {145, 0xFF, 145}, /* a camera */
        {158, 0xFF, UNCHANGED}, {162, 0, UNCHANGED}, /* a self-shadow's mode and distance */
        {170, 0xFF, UNCHANGED}, {171, 0, UNCHANGED}, {171, 2, 171}, {171, 0x80, 171}, /* a property's frame and flag */
        {176, 0, 177}, {178, 0, UNCHANGED}, {179, 's', UNCHANGED}, {180, 's', 180}, {195, 1, 195}, /* an IK state's name */
        {196, 0, UNCHANGED}, {196, 2, 196}, {196, 0x7F, 196}, /* its flag */
    };
    size_t k;
    file.len = 0;
    put(&file, whole, sizeof whole - 1);
    mark_file();
    name_file("a file told in bytes");
    expect_number("length", file.len, 197);
    try_file(UNCHANGED);
    for (k = 0; k < sizeof rows / sizeof *rows; k++)
        try_byte(rows[k].at, rows[k].value, rows[k].place);
}

/* ---- every byte of a file */

/* What is told of it. A zero in a name ends it, and what comes after it would be lost; on the zero a name becomes longer. */
static size_t place_for(size_t at, unsigned value)
{
    if (is_asked(at))
        return value > (kinds[at] == FLAG) ? at : UNCHANGED;
    if (kinds[at] == NAME && value == 0 && kinds[at + 1] == NAME && file.at[at + 1] != 0)
        return at + 1;
    return UNCHANGED;
}

/* In the magic, or in a count: the file may be refused, or may have other records. */
static void try_other_file(size_t at, unsigned value)
{
    uint8_t kept = file.at[at];
    size_t place;
    trial("%s, byte %zu made %u", file_name, at, value);
    file.at[at] = (uint8_t)value;
    try_bytes(&file, &place);
    file.at[at] = kept;
}

/* Every value of bytes 26 to 29 and of the flags; a few of others. */
static void every_byte(void)
{
    static const uint8_t few[] = {0, 1, 2, 0x7F, 0x80, 0xFF};
    size_t at, k;
    for (at = 0; at < file.len; at++)
        switch (kinds[at]) {
        case SPARE:
        case FLAG:
            for (k = 0; k < 256; k++)
                try_byte(at, (unsigned)k, place_for(at, (unsigned)k));
            break;
        case MAGIC:
        case COUNT:
            for (k = 0; k < sizeof few; k++)
                try_other_file(at, few[k]);
            break;
        default:
            for (k = 0; k < sizeof few; k++)
                try_byte(at, few[k], place_for(at, few[k]));
        }
}

/* Names of these lengths in turn, as far as their fields hold them. */
static void rename_all(struct take *t, const size_t *lengths, size_t n)
{
    size_t i, j, k = 0;
    t->model = next_name(lengths[k++ % n]);
    for (i = 0; i < t->counts[VMD_BONES]; i++)
        t->bones[i].name = next_name(smaller(15, lengths[k++ % n]));
    for (i = 0; i < t->counts[VMD_MORPHS]; i++)
        t->morphs[i].name = next_name(smaller(15, lengths[k++ % n]));
    for (i = 0; i < t->counts[VMD_PROPERTIES]; i++)
        for (j = 0; j < t->properties[i].n_states; j++)
            t->properties[i].states[j].name = next_name(lengths[k++ % n]);
}

static void bytes_told(void)
{
    static const size_t empty[] = {0}, full[] = {20}, others[] = {7, 0, 12, 20, 13, 1, 14, 19};
    struct take t = empty_take();
    begin(&t, "no records");
    every_byte();
    t = distinct_take(0, 1, 1, 1, 1, 1, 3);
    rename_all(&t, empty, 1);
    begin(&t, "empty names");
    every_byte();
    rename_all(&t, full, 1);
    begin(&t, "names that fill their fields");
    every_byte();
    t = distinct_take(0, 3, 3, 3, 2, 2, 4);
    rename_all(&t, others, 8);
    begin(&t, "names of many lengths");
    every_byte();
}

/* ---- names: a byte after the zero, at every place of every field */

/* Where the name of record i of a section stands, or of a property's state j. */
static size_t name_place(const struct take *t, int section, size_t i, size_t j)
{
    size_t at = count_place(NEWER, t, section) + 4, k;
    if (section != VMD_PROPERTIES)
        return at + record_sizes[section] * i;
    for (k = 0; k < i; k++)
        at += 9 + 21 * t->properties[k].n_states;
    return at + 9 + 21 * j;
}

/* The name of this length stands here in the take's file, in a field of this width. */
static void try_name(const struct take *t, const char *what, size_t at, size_t width, size_t len)
{
    static const uint8_t values[] = {1, 0x0A, 0x20, 0x7F, 0x80, 0xFD, 0xFF};
    size_t i, k;
    begin(t, what);
    for (i = len + 1; i < width; i++) {
        for (k = 0; k < sizeof values; k++)
            try_byte(at + i, values[k], at + i);
        trial("%s, all bytes from %zu on made 128", what, at + i);
        memset(file.at + at + i, 0x80, width - i);
        try_file(at + i);
        memset(file.at + at + i, 0, width - i);
    }
}

/* The model's, and those of the first, a middle and the last record. */
static void names_told(void)
{
    static const size_t frames[3] = {1, 2, 3}, states[3] = {0, 1, 2}; /* property frame i has i states */
    size_t len, r;
    for (len = 0; len <= 20; len++) {
        struct take t = distinct_take(len, 3, 3, 1, 1, 1, 4), u;
        try_name(&t, "the model's name", MAGIC_FIELD, 20, len);
        for (r = 0; r < 3; r++) {
            u = t;
            u.properties[frames[r]].states[states[r]].name = next_name(len);
            try_name(&u, "an IK state's name", name_place(&u, VMD_PROPERTIES, frames[r], states[r]), 20, len);
            if (len > 15)
                continue;
            u.bones[r].name = u.morphs[r].name = next_name(len);
            try_name(&u, "a bone's name", name_place(&u, VMD_BONES, r, 0), 15, len);
            try_name(&u, "a morph's name", name_place(&u, VMD_MORPHS, r, 0), 15, len);
        }
    }
}

/* ---- two things at once */

/* One record of each section, and two IK states. */
static struct take short_take(void)
{
    static const size_t lengths[] = {14, 9, 5, 16, 17};
    struct take t = distinct_take(0, 1, 1, 1, 1, 1, 1);
    t.properties[0].n_states = 2;
    rename_all(&t, lengths, 5);
    return t;
}

/* Any value that is neither zero nor a flag's. */
static uint8_t other_value(void)
{
    static unsigned turn;
    return (uint8_t)(2 + turn++ % 254);
}

static void two_bytes(void)
{
    struct take t = short_take();
    size_t a, b;
    begin(&t, "a short file");
    for (a = 0; a < file.len; a++) {
        uint8_t kept = file.at[a];
        if (!is_asked(a))
            continue;
        name_file("byte %zu changed", a);
        file.at[a] = other_value();
        for (b = a + 1; b < file.len; b++)
            if (is_asked(b))
                try_byte(b, other_value(), a);
        file.at[a] = kept;
    }
}

static void try_sample(const struct sample *s)
{
    trial("%s", s->name);
    try_canonical_told(s);
}

/* A canonical file with one byte changed. */
static void make_changed(struct sample *d, const struct take *t, size_t at)
{
    make_whole(d, NEWER, t, CANONICAL);
    d->file.at[at] = other_value();
    change_at(d, at);
}

/* A whole file now ends after n bytes: before a count, among records that may be counted too large, or where it is refused. */
static void cut_after(struct sample *d, size_t n)
{
    int s;
    d->file.len = n;
    d->reads = alike(VMD_ENDS_EARLY);
    for (s = VMD_MORPHS; s < SECTIONS; s++) {
        size_t at = count_place(d->edition, &d->means, s), end = at + 4 + record_sizes[s] * d->means.counts[s];
        if (n == at) {
            d->reads = alike(VMD_OK);
            change_at(d, n);
            empty_from(&d->means, s);
            return;
        }
        if (VMD_CAMERAS <= s && s <= VMD_SELF_SHADOWS && at + 4 <= n && n < end) {
            oversize(d, s, (uint32_t)d->means.counts[s]);
            return;
        }
    }
}

static void changed_and_cut(const struct take *t, size_t at)
{
    static struct sample d;
    size_t n;
    for (n = at + 1; n < canonical_size(t); n++) {
        make_changed(&d, t, at);
        cut_after(&d, n);
        try_told(&d, try_sample, "byte %zu changed, cut after %zu bytes", at, n);
    }
}

/* Of two changes it is the earlier one; what is refused is refused whatever was changed before. */
static void changed_and_damaged(const struct take *t, size_t at)
{
    static const uint32_t counts[] = {0xFFFFFFFF, 0x00010000};
    static struct sample d;
    enum over over;
    size_t k;
    int s;
    for (over = ZEROS; over < OVERS; over++) {
        make_changed(&d, t, at);
        put_over(&d, 1 + at % 40, over);
        try_told(&d, try_sample, "byte %zu changed, bytes over of kind %u", at, (unsigned)over);
    }
    for (s = 0; s < SECTIONS; s++)
        for (k = 0; k < sizeof counts / sizeof *counts; k++) {
            make_changed(&d, t, at);
            if (VMD_CAMERAS <= s && s <= VMD_SELF_SHADOWS) {
                oversize(&d, s, counts[k]);
            } else {
                set_u32(&d.file, count_place(NEWER, t, s), counts[k]);
                d.reads = alike(VMD_ENDS_EARLY);
            }
            try_told(&d, try_sample, "byte %zu changed, count %u in section %d", at, (unsigned)counts[k], s);
        }
    make_changed(&d, t, at);
    d.file.at[MAGICS_DIFFER] = 'O';
    d.reads = alike(VMD_MAGIC_DIFFERS);
    try_told(&d, try_sample, "byte %zu changed, and the magic", at);
}

static void changed_and_more(void)
{
    struct take t = short_take();
    size_t at;
    begin(&t, "a short file");
    for (at = 0; at < file.len; at++)
        if (is_asked(at)) {
            changed_and_cut(&t, at);
            changed_and_damaged(&t, at);
        }
}

/* ---- cut files, and damaged ones */

/* Also no bytes at all, which is a null pointer. */
static void cut_anywhere(enum edition edition, enum form form)
{
    static struct sample d;
    struct take t = distinct_take(6, 2, 2, 2, 2, 2, 4);
    size_t n;
    make_whole(&d, edition, &t, form);
    try_told(&d, try_sample, "a whole file");
    for (n = d.file.len; n-- > 0;) {
        make_whole(&d, edition, &t, form);
        cut_after(&d, n);
        try_told(&d, try_sample, "cut after %zu bytes", n);
    }
}

/* No bytes of a page that cannot be read. */
static void no_bytes(enum manner m)
{
    trial("no bytes");
    ask_both(m, end_of(&lent_asked), 0, VMD_ENDS_EARLY, UNCHANGED);
}

/* Counts of which one byte is not zero, at the file's end, a little before it and before other sections. */
static void oversized_told(void)
{
    static struct sample d;
    struct take t = distinct_take(6, 1, 1, 1, 1, 1, 3);
    unsigned value, byte;
    size_t after;
    int s;
    for (s = VMD_CAMERAS; s <= VMD_SELF_SHADOWS; s++)
        for (byte = 0; byte < 4; byte++)
            for (value = 1; value < 256; value += value == 1 ? 126 : 64)
                for (after = 0; after <= 16; after += 8) {
                    uint32_t count = (uint32_t)value << 8 * byte;
                    size_t at = count_place(NEWER, &t, s);
                    make_whole(&d, NEWER, &t, CANONICAL);
                    if (after < 16)
                        d.file.len = at + 4 + after;
                    if (count <= records_left(&d, s))
                        continue;
                    oversize(&d, s, count);
                    expect_number("the place", d.change, at + byte);
                    try_told(&d, try_sample, "count %u in section %d, row %zu", (unsigned)count, s, after);
                }
}

static size_t tried[18]; /* files by their strict number */

static void try_damaged(const struct sample *s)
{
    tried[s->reads.in[STRICT]]++;
    try_sample(s);
}

static void damaged_files(void)
{
    enum edition edition;
    for (edition = NEWER; edition < EDITIONS; edition++) {
        cut_anywhere(edition, CANONICAL);
        cut_anywhere(edition, RAW);
        each_damaged(edition, CANONICAL, try_damaged);
        each_damaged(edition, RAW, try_damaged);
    }
    expect_each_number(tried);
}

/* "For every file of the older edition the place is 21." */
static void older_files(void)
{
    static struct bytes b;
    struct take t = distinct_take(6, 2, 2, 2, 2, 2, 4);
    size_t at, place;
    encode_in(&b, OLDER, &t, CANONICAL);
    for (at = MAGIC_TOLD; at < b.len; at++) {
        uint8_t kept = b.at[at];
        b.at[at] = other_value();
        trial("byte %zu of an older file changed", at);
        if (try_bytes(&b, &place).in[LENIENT] == VMD_OK)
            expect_number("the place", place, MAGICS_DIFFER);
        b.at[at] = kept;
    }
}

/* ---- any files: most of them canonical, and then with other bytes, cut, with bytes over or with other numbers */

static void any_files(void)
{
    enum { YES, NO, REFUSED, KINDS };
    static struct bytes b;
    size_t i, n, place, told[KINDS] = {0, 0, 0};
    for (i = 0; i < 8000; i++) {
        struct take t = distinct_take(random_below(11), random_below(3), random_below(3), random_below(3), random_below(3),
                                      random_below(3), random_below(4));
        trial("random file %zu", i);
        encode_in(&b, random_below(8) ? NEWER : OLDER, &t, random_below(8) ? CANONICAL : RAW);
        for (n = random_below(4); n > 0; n--)
            b.at[MAGIC_TOLD + random_below(b.len - MAGIC_TOLD)] = (uint8_t)random_below(3);
        for (n = random_below(2); n > 0 && b.len > editions[OLDER].sections + 4; n--)
            spoil(&b);
        told[try_bytes(&b, &place).in[LENIENT] != VMD_OK ? REFUSED : place != UNCHANGED ? NO : YES]++;
    }
    trial("random files");
    for (i = 0; i < KINDS; i++)
        expect(told[i] >= 400, "%zu of kind %zu", told[i], i);
}

/* ---- what the calls write */

static struct bytes out;
static uint64_t out_len;

/* Saving what a call has written would touch this place first. */
static void try_written(const char *what, uint32_t number, size_t place)
{
    expect_number(what, number, VMD_OK);
    try_canonical(out.at, out_len, alike(VMD_OK), place);
}

static void written_by_calls(enum manner m, const struct sample *first, const struct sample *second)
{
    static uint64_t scratch[MOST_PROPERTIES];
    const uint8_t *f = first->file.at, *s = second->file.at;
    size_t len = first->file.len, s_len = second->file.len, room = sizeof out.at;
    uint32_t kept[6], dropped[6], last = (uint32_t)random_u64();
    try_written("export", export_in(m, f, len, out.at, room, &out_len), UNCHANGED);
    try_written("join", join_in(m, f, len, s, s_len, out.at, room, &out_len), UNCHANGED);
    try_written("tidy", tidy_in(m, f, len, scratch, MOST_PROPERTIES, out.at, room, &out_len, kept, dropped), UNCHANGED);
    try_written("excerpt", excerpt_in(m, f, len, last / 2, last, out.at, room, &out_len), UNCHANGED);
    if (first->means.model.len <= editions[OLDER].model_width)
        try_written("older export", older_in(m, f, len, out.at, room, &out_len), MAGICS_DIFFER);
}

/* From records with bytes after their names and flags of any value. */
static void written_by_the_builder(void)
{
    static struct parts parts;
    struct take t = good_take();
    struct slice s[SLICES];
    size_t n[BUFFERS], k;
    parts_of(&parts, &t);
    parts.part[CAMERAS].len = parts.part[PROPERTIES].len = 0;
    put_records(&parts.part[CAMERAS], &t, VMD_CAMERAS, RAW);
    put_records(&parts.part[PROPERTIES], &t, VMD_PROPERTIES, RAW);
    lengths_of(&parts, n);
    s[0].at = t.model.at, s[0].len = t.model.len, s[0].size = 1;
    for (k = 0; k < BUFFERS; k++)
        s[k + 1].at = parts.part[k].at, s[k + 1].len = n[k], s[k + 1].size = buffers[k].size;
    trial("a file that is built");
    try_written("build", build_with(s, out.at, sizeof out.at, 0, &out_len), UNCHANGED);
}

static void written_files(void)
{
    static struct sample files[2];
    size_t i, k;
    for (i = 0; i < 400; i++) {
        enum manner m = i % 2 ? STRICT : LENIENT;
        trial("random takes %zu", i);
        for (k = 0; k < 2; k++) {
            struct take t = random_below(2) ? crowded_take(random_below(11), random_below(30))
                                            : distinct_take(random_below(11), random_below(9), random_below(9), random_below(9),
                                                            random_below(9), random_below(9), random_below(30));
            enum edition edition = random_below(2) ? NEWER : OLDER;
            if (edition == NEWER && random_below(2))
                t.model = next_name(random_below(21));
            make_whole(&files[k], edition, &t, random_below(2) ? RAW : CANONICAL);
            if (m == LENIENT && random_below(2))
                damage(&files[k]);
            try_canonical_told(&files[k]);
        }
        written_by_calls(m, &files[0], &files[1]);
    }
    for (i = 0; i < 20; i++)
        written_by_the_builder();
}

/* ---- many records, of which a library may look at several at once */

enum { IK_STATES = SECTIONS };

/* So many IK states in a frame, and another frame after it. */
static void put_many_states(const struct take *t, uint32_t n)
{
    uint32_t i;
    put_u32(&file, 2);
    put_record(&file, t, VMD_PROPERTIES, 0, CANONICAL);
    set_u32(&file, file.len - 4, n);
    for (i = 0; i < n; i++) {
        put_name(&file, &t->properties[3].states[i % 3].name, 20, CANONICAL);
        put_flag(&file, i % 2, CANONICAL);
    }
    put_record(&file, t, VMD_PROPERTIES, 2, CANONICAL);
}

/* So many records of one section, or IK states of one frame, and one record of each other section. */
static void make_many(int section, uint32_t n)
{
    static const size_t lengths[] = {0, 3, 13, 7, 12};
    struct take t = distinct_take(0, 5, 5, 5, 5, 5, 5);
    uint32_t i, count;
    int s;
    rename_all(&t, lengths, 5);
    file.len = 0;
    put_header(&file, &t.model, CANONICAL);
    for (s = 0; s < SECTIONS; s++) {
        if (s == VMD_PROPERTIES && section == IK_STATES) {
            put_many_states(&t, n);
            break;
        }
        count = s == section ? n : 1;
        put_u32(&file, count);
        for (i = 0; i < count; i++)
            put_record(&file, &t, s, i % 5, CANONICAL);
    }
    mark_file();
    name_file("%u records of section %d", (unsigned)n, section);
    try_file(UNCHANGED);
}

/* Of many records those around the numbers that blocks may have, and the last ones. */
static int is_near(uint32_t number, uint32_t n)
{
    static const uint32_t sizes[] = {0, 8, 16, 32, 64, 96, 128, 192, 256, 512, 1000};
    size_t k;
    for (k = 0; k < sizeof sizes / sizeof *sizes; k++)
        if (number + 2 >= sizes[k] && number <= sizes[k] + 2)
            return 1;
    return n < 200 || number + 2 >= n;
}

/* A flag, or the first or the last byte after a name. */
static int is_end_of_asked(size_t at)
{
    return is_asked(at) && (kinds[at] != NAME || kinds[at + 1] != NAME || !is_after_name(at - 1));
}

static void many_records(void)
{
    static const uint32_t sizes[] = {2, 63, 64, 65, 127, 128, 129, 193, 1000, 1001};
    size_t k, at;
    int s;
    for (s = 0; s <= IK_STATES; s++)
        for (k = 0; k < sizeof sizes / sizeof *sizes; k++) {
            make_many(s, sizes[k]);
            for (at = MAGIC_TOLD; at < file.len; at++)
                if (is_near(numbers[at], sizes[k]) && is_end_of_asked(at))
                    try_byte(at, other_value(), at);
        }
}

/* ---- more records than 16 bits count, all of zeros but one */

enum { RECORDS = 70000, MORPHS_END = 58 + 23 * RECORDS, STATES_END = 83 + 21 * RECORDS };

static uint8_t large[MORPHS_END + 16];

static void set_large(size_t at, uint32_t value)
{
    int k;
    for (k = 0; k < 4; k++)
        large[at + (size_t)k] = (uint8_t)(value >> 8 * k);
}

/* This byte of four records, the last one among them. */
static void try_large(const char *what, size_t len, size_t first, size_t size)
{
    static const size_t changed[] = {0, 65535, 65536, RECORDS - 1};
    size_t k;
    trial("%d %s", (int)RECORDS, what);
    try_canonical(large, len, alike(VMD_OK), UNCHANGED);
    for (k = 0; k < sizeof changed / sizeof *changed; k++) {
        size_t at = first + size * changed[k];
        trial("%d %s, of which number %zu is changed", (int)RECORDS, what, changed[k]);
        large[at] = 2;
        try_canonical(large, len, alike(VMD_OK), at);
        large[at] = 0;
    }
}

static void more_than_16_bits(void)
{
    memcpy(large, editions[NEWER].magic, MAGIC_TOLD);
    set_large(54, RECORDS);
    try_large("morphs", MORPHS_END + 16, 58 + 14, 23);
    set_large(54, 0);
    set_large(70, 1);
    set_large(79, RECORDS);
    try_large("IK states", STATES_END, 83 + 20, 21);
}

int main(void)
{
    enum manner m;
    told_in_numbers();
    bytes_told();
    names_told();
    two_bytes();
    changed_and_more();
    oversized_told();
    damaged_files();
    older_files();
    any_files();
    written_files();
    many_records();
    more_than_16_bits();
    for (m = STRICT; m < MANNERS; m++)
        no_bytes(m);
    return finished("canonical");
}
