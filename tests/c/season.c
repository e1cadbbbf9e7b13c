/*
 * Season figures, through the C interface: every slot of counts, figures and mean after every call, against a plain model of
 * them over takes of the test's own. Takes are read in the lenient manner: those that the strict one refuses are counted.
 *
 * Not tried: a take of more than 4,294,967,295 records; the smallest has 36 GiB.
 */
#include "check.h"
#include "damaged.h"
#include "expect.h"
#include "names.h"
#include "random.h"
#include "vmd.h"

enum { COUNTS = 12, FIGURES = 11 };

static const uint64_t most = UINT64_MAX;

static struct fence lent_file, lent_counts, lent_figures, lent_read, lent_mean;

/* ---- what is expected */

struct season {
    uint32_t counts[COUNTS];
    uint64_t figures[FIGURES];
};

/* What a take adds to each figure. */
struct addition {
    uint64_t to[FIGURES];
};

static struct addition of_a_refused_one(void)
{
    struct addition a;
    memset(&a, 0, sizeof a);
    a.to[VMD_SEASON_REFUSED] = 1;
    return a;
}

/* How many of the names are not of the same track as one before them. */
static size_t distinct(const struct name *names, size_t n)
{
    size_t i, j, different = 0;
    for (i = 0; i < n; i++) {
        for (j = 0; j < i; j++)
            if (same_track(&names[j], &names[i]))
                break;
        different += j == i;
    }
    return different;
}

static struct addition of_take(const struct take *t)
{
    struct addition a;
    struct name bones[MOST], morphs[MOST];
    size_t i;
    memset(&a, 0, sizeof a);
    for (i = 0; i < SECTIONS; i++) {
        a.to[VMD_SEASON_TOTAL + i] = t->counts[i];
        a.to[VMD_SEASON_RECORDS] += t->counts[i];
    }
    for (i = 0; i < t->counts[VMD_BONES]; i++)
        bones[i] = t->bones[i].name;
    for (i = 0; i < t->counts[VMD_MORPHS]; i++)
        morphs[i] = t->morphs[i].name;
    a.to[VMD_SEASON_BONE_NAMES] = distinct(bones, t->counts[VMD_BONES]);
    a.to[VMD_SEASON_MORPH_NAMES] = distinct(morphs, t->counts[VMD_MORPHS]);
    a.to[VMD_SEASON_ACCEPTED] = 1;
    return a;
}

/* Of a file that was a take's before it was damaged. */
static struct addition of_damaged(const struct bytes *file, const struct take *t)
{
    static struct opening o;
    struct take left;
    if (expected_opening(LENIENT, file->at, file->len, &o) != 0)
        return of_a_refused_one();
    left = left_of(t, &o);
    return of_take(&left);
}

static void add_expected(struct season *s, const struct addition *a)
{
    int accepted = a->to[VMD_SEASON_REFUSED] == 0, first = s->figures[VMD_SEASON_ACCEPTED] == 0;
    size_t k;
    for (k = 0; k < VMD_SEASON_REFUSED; k++)
        if (a->to[k] > most - s->figures[k])
            accepted = 0;
    if (!accepted) {
        if (s->figures[VMD_SEASON_REFUSED] < most)
            s->figures[VMD_SEASON_REFUSED]++;
        return;
    }
    for (k = 0; k < VMD_SEASON_REFUSED; k++)
        s->figures[k] += a->to[k];
    for (k = 0; k < SECTIONS; k++) {
        uint32_t count = (uint32_t)a->to[VMD_SEASON_TOTAL + k];
        uint32_t *smallest = &s->counts[VMD_SEASON_SMALLEST + k], *largest = &s->counts[VMD_SEASON_LARGEST + k];
        if (first || count < *smallest)
            *smallest = count;
        if (first || count > *largest)
            *largest = count;
    }
}

/* ---- one call: every slot, and what was only lent to be read */

static void expect_season(const struct season *s)
{
    struct season got;
    size_t k;
    memcpy(got.counts, lent_counts.at, sizeof got.counts);
    memcpy(got.figures, lent_figures.at, sizeof got.figures);
    for (k = 0; k < COUNTS; k++)
        expect(got.counts[k] == s->counts[k], "counts[%zu]: expected %lu, got %lu", k, (unsigned long)s->counts[k],
               (unsigned long)got.counts[k]);
    for (k = 0; k < FIGURES; k++)
        expect(got.figures[k] == s->figures[k], "figures[%zu]: expected %llu, got %llu", k,
               (unsigned long long)s->figures[k], (unsigned long long)got.figures[k]);
    expect_unwritten("before counts", lent_counts.at - 64, 64);
    expect_unwritten("before figures", lent_figures.at - 64, 64);
}

static void expect_mean(const uint64_t figures[FIGURES], uint64_t quotient, uint64_t remainder)
{
    uint64_t mean[2];
    vmd_season_mean(lend(&lent_read, figures, FIGURES * sizeof *figures), lend_unwritten(&lent_mean, sizeof mean));
    memcpy(mean, lent_mean.at, sizeof mean);
    expect_number("mean's quotient", mean[0], quotient);
    expect_number("mean's remainder", mean[1], remainder);
    expect_unwritten("before the mean", lent_mean.at - 64, 64);
    expect_lent("the mean's figures", &lent_read, figures, FIGURES * sizeof *figures);
}

static void try_mean(const uint64_t figures[FIGURES])
{
    uint64_t records = figures[VMD_SEASON_RECORDS], accepted = figures[VMD_SEASON_ACCEPTED];
    if (accepted == 0)
        expect_mean(figures, 0, 0);
    else
        expect_mean(figures, records / accepted, records % accepted);
}

static struct season none(void)
{
    struct season s;
    vmd_season_none(lend_unwritten(&lent_counts, sizeof s.counts), lend_unwritten(&lent_figures, sizeof s.figures));
    memset(&s, 0, sizeof s);
    expect_season(&s);
    try_mean(s.figures);
    return s;
}

/* One more take: the season becomes what it has to be with it. */
static void add_bytes(struct season *s, const uint8_t *at, size_t len, const struct addition *a)
{
    uint8_t *file = lend(&lent_file, at, len);
    uint32_t *counts = lend(&lent_counts, s->counts, sizeof s->counts);
    vmd_season_add(file, len, counts, lend(&lent_figures, s->figures, sizeof s->figures));
    add_expected(s, a);
    expect_season(s);
    expect_lent("file", &lent_file, at, len);
    try_mean(s->figures);
}

static void add(struct season *s, const struct bytes *file, const struct addition *a)
{
    add_bytes(s, file->at, file->len, a);
}

static struct bytes file;

static void add_take_in(struct season *s, enum edition edition, const struct take *t, enum form form)
{
    struct addition a = of_take(t);
    encode_in(&file, edition, t, form);
    add(s, &file, &a);
}

static void add_take(struct season *s, const struct take *t, enum form form)
{
    add_take_in(s, NEWER, t, form);
}

/* ---- any numbers */

/* Small, near the largest value, a power of two, or any. */
static uint64_t random_figure(void)
{
    switch (random_below(4)) {
    case 0: return random_below(20);
    case 1: return most - random_below(20);
    case 2: return (uint64_t)1 << random_below(64);
    default: return random_u64();
    }
}

/* Few figures are near their largest value, so that most takes are counted. */
static struct season random_season(void)
{
    struct season s;
    size_t k;
    for (k = 0; k < COUNTS; k++)
        s.counts[k] = (uint32_t)(random_below(2) ? random_below(8) : random_u64());
    for (k = 0; k < FIGURES; k++)
        s.figures[k] = random_below(30) ? random_figure() >> 1 : random_figure();
    if (random_below(4) == 0)
        s.figures[VMD_SEASON_ACCEPTED] = 0;
    return s;
}

/* Few letters, so that names are the same, one the beginning of another, and many with a remark. */
static struct name random_name(void)
{
    static const uint8_t letters[4] = {'a', 0x0A, 0xFF, 1};
    struct name n;
    size_t i;
    memset(&n, 0, sizeof n);
    n.len = random_below(5) ? random_below(3) : random_below(16);
    for (i = 0; i < n.len; i++)
        n.at[i] = letters[random_below(n.len < 4 ? 4 : 2)];
    return n;
}

static size_t random_count(void)
{
    return random_below(3) ? random_below(4) : random_below(MOST + 1);
}

static struct take random_take(void)
{
    struct take t = distinct_take(random_below(21), random_count(), random_count(), random_count(), random_count(),
                                  random_count(), random_count());
    size_t i;
    for (i = 0; i < t.counts[VMD_BONES]; i++)
        t.bones[i].name = random_name();
    for (i = 0; i < t.counts[VMD_MORPHS]; i++)
        t.morphs[i].name = random_name();
    return t;
}

/* Any edition that can hold the take's model name. */
static enum edition random_edition(const struct take *t)
{
    return t->model.len <= editions[OLDER].model_width && random_below(2) ? OLDER : NEWER;
}

/* A take, whole or damaged. */
static void add_random(struct season *s)
{
    struct take t = random_take();
    struct addition a;
    encode_in(&file, random_edition(&t), &t, random_below(2) ? CANONICAL : RAW);
    switch (random_below(8)) {
    case 0: file.len = random_below(file.len); break;
    case 1: file.at[random_below(26)] ^= 32; break;
    case 2: put(&file, "over", 1 + random_below(4)); break;
    }
    a = of_damaged(&file, &t);
    add(s, &file, &a);
}

/* Any number may stand in any slot; and seasons of some takes, from no takes on. */
static void any_numbers(void)
{
    size_t i, n;
    for (i = 0; i < 20000; i++) {
        struct season s = random_season();
        trial("random season %zu", i);
        add_random(&s);
    }
    for (i = 0; i < 500; i++) {
        struct season s;
        trial("random takes %zu", i);
        s = none();
        for (n = random_below(30); n > 0; n--)
            add_random(&s);
    }
}

/* ---- no takes, and one list told in numbers */

/* Zeros, whatever stood there. */
static void no_takes(void)
{
    static const uint8_t stood[4] = {0, 1, UNWRITTEN, 0xFF};
    struct season s, zeros;
    size_t k;
    memset(&zeros, 0, sizeof zeros);
    for (k = 0; k < sizeof stood; k++) {
        trial("no takes, over bytes %u", stood[k]);
        memset(&s, stood[k], sizeof s);
        vmd_season_none(lend(&lent_counts, s.counts, sizeof s.counts), lend(&lent_figures, s.figures, sizeof s.figures));
        expect_season(&zeros);
        expect_mean(zeros.figures, 0, 0);
    }
}

/* The numbers are written here, so that they show the slots' places too; the figures stay in the same memory. */
static void told_in_numbers(enum edition edition)
{
    static const struct season expected = {
        {2, 0, 0, 1, 0, 0, 5, 3, 2, 3, 3, 2},
        {7, 3, 2, 4, 3, 2, 21, 4, 2, 2, 1}
    };
    static const char *const names[5] = {"a", "b", "", "a", "b"};
    struct take first = distinct_take(4, 2, 3, 0, 3, 0, 2), second = distinct_take(0, 5, 0, 2, 1, 3, 0);
    uint32_t *counts = lend_unwritten(&lent_counts, sizeof expected.counts);
    uint64_t *figures = lend_unwritten(&lent_figures, sizeof expected.figures);
    size_t i;
    trial("three takes, one of them refused, the first two of the %s edition", editions[edition].name);
    for (i = 0; i < 2; i++)
        first.bones[i].name = named("a");
    for (i = 0; i < 3; i++)
        first.morphs[i].name = named(names[i % 2]);
    for (i = 0; i < 5; i++)
        second.bones[i].name = named(names[i]);
    vmd_season_none(counts, figures);
    encode_in(&file, edition, &first, RAW);
    vmd_season_add(file.at, file.len, counts, figures);
    vmd_season_add(file.at, 30, counts, figures);
    encode(&file, &second, CANONICAL);
    vmd_season_add(file.at, file.len, counts, figures);
    expect_season(&expected);
    expect_mean(expected.figures, 10, 1);
}

/* ---- lists of takes */

static void lists(void)
{
    struct addition a;
    struct take t;
    struct season s;
    size_t i;
    trial("takes without records");
    s = none();
    t = empty_take();
    add_take(&s, &t, CANONICAL);
    t = distinct_take(20, 0, 0, 0, 0, 0, 0);
    add_take(&s, &t, RAW);
    expect_number("accepted", s.figures[VMD_SEASON_ACCEPTED], 2);

    trial("a take with records, and then one without");
    s = none();
    t = distinct_take(7, 12, 11, 10, 9, 8, 7);
    add_take(&s, &t, RAW);
    t = empty_take();
    add_take(&s, &t, CANONICAL);

    trial("one without records, and then a take with some");
    s = none();
    add_take(&s, &t, CANONICAL);
    t = distinct_take(7, 1, 2, 3, 4, 5, 6);
    add_take(&s, &t, RAW);

    trial("a refused take, and then the first that is accepted");
    s = none();
    a = of_a_refused_one();
    add_bytes(&s, file.at, 49, &a);
    add_take(&s, &t, RAW);

    trial("the same take forty times, in both editions");
    s = none();
    t = random_take();
    t.model = named("ten bytes!");
    for (i = 0; i < 40; i++)
        add_take_in(&s, i % 3 ? NEWER : OLDER, &t, i % 2 ? CANONICAL : RAW);
    expect_number("accepted", s.figures[VMD_SEASON_ACCEPTED], 40);
}

/* The same takes, some of them refused, in other orders: the same figures. */
static void orders(void)
{
    enum { TAKES = 24 };
    static struct bytes files[TAKES];
    static struct addition adds[TAKES];
    struct season forth, other;
    size_t i, step;
    trial("a list in its order");
    forth = none();
    for (i = 0; i < TAKES; i++) {
        struct take t = random_take();
        encode_in(&files[i], random_edition(&t), &t, RAW);
        if (i % 7 == 3)
            files[i].len = 53;
        adds[i] = of_damaged(&files[i], &t);
        add(&forth, &files[i], &adds[i]);
    }
    for (step = 5; step < TAKES; step += 6) { /* they have no divisor with 24 in common; the last is the list turned round */
        trial("a list in the order of step %zu", step);
        other = none();
        for (i = 0; i < TAKES; i++)
            add(&other, &files[(i + 1) * step % TAKES], &adds[(i + 1) * step % TAKES]);
        expect_season(&forth);
    }
}

/* One section in turn has the only records: 3, 1, 5 and 2 of them. */
static void sections_alone(void)
{
    static const size_t n[4] = {3, 1, 5, 2};
    size_t section, i;
    for (section = 0; section < SECTIONS; section++) {
        struct season s, expected;
        trial("records in section %zu alone", section);
        s = none();
        for (i = 0; i < 4; i++) {
            struct take t = distinct_take(2, 5, 5, 5, 5, 5, 5);
            size_t k;
            for (k = 0; k < SECTIONS; k++)
                t.counts[k] = k == section ? n[i] : 0;
            t.bones[0].name = t.bones[1].name = t.morphs[0].name = t.morphs[1].name = named("same");
            add_take(&s, &t, RAW);
        }
        memset(&expected, 0, sizeof expected);
        expected.counts[section] = 1;
        expected.counts[6 + section] = 5;
        expected.figures[section] = expected.figures[6] = 11;
        if (section < 2)
            expected.figures[7 + section] = 2 + 1 + 4 + 1;
        expected.figures[9] = 4;
        expect_season(&expected);
    }
}

/* ---- files as others write them, and files that are refused */

/* A small take cut anywhere: what is refused alone, and all of it. */
static void cut_anywhere(enum edition edition)
{
    struct take t = distinct_take(9, 2, 1, 1, 2, 1, 2);
    struct season refused, all;
    struct addition a;
    size_t n, cuts = 0;
    encode_in(&file, edition, &t, RAW);
    trial("cut files");
    refused = none();
    all = none();
    for (n = file.len; n-- > 0;) {
        file.len = n;
        a = of_damaged(&file, &t);
        trial("a file of the %s edition cut after %zu bytes", editions[edition].name, n);
        add(&all, &file, &a);
        if (a.to[VMD_SEASON_REFUSED] == 0)
            continue;
        cuts++;
        trial("a file of the %s edition cut after %zu bytes, none accepted", editions[edition].name, n);
        add(&refused, &file, &a);
    }
    trial("cut files");
    expect_number("refused", refused.figures[VMD_SEASON_REFUSED], cuts);
    /* where a section ends, or inside cameras, lights or self-shadows, which are then emptied */
    expect_number("accepted of all", all.figures[VMD_SEASON_ACCEPTED], 5 + 61 + 2 * 28 + 9);
    for (n = 0; n < 30; n++) {
        encode_in(&file, edition, &t, RAW);
        file.at[n] ^= 1;
        a = of_damaged(&file, &t);
        trial("byte %zu of the %s edition's magic changed", n, editions[edition].name);
        expect_number("refused", a.to[VMD_SEASON_REFUSED], n < 26);
        add(&refused, &file, &a);
    }
}

/* A count that the rest of the file cannot hold, of each section, and bytes over. Cut files have missing sections. */
static void other_counts(enum edition edition)
{
    static struct opening o;
    struct take t = distinct_take(9, 2, 3, 4, 5, 6, 7);
    struct addition a;
    struct season s;
    size_t section;
    trial("counts that are too large");
    s = none();
    for (section = 0; section < SECTIONS; section++) {
        encode_in(&file, edition, &t, RAW);
        expected_opening(STRICT, file.at, file.len, &o);
        set_u32(&file, o.places[section] - 4, 0xFFFFFFFF);
        a = of_damaged(&file, &t);
        trial("a count of section %zu that is too large, %s edition", section, editions[edition].name);
        add(&s, &file, &a);
    }
    trial("counts that are too large");
    expect_number("refused", s.figures[VMD_SEASON_REFUSED], 3);
    expect_number("cameras", s.figures[VMD_SEASON_TOTAL + VMD_CAMERAS], 0 + 4 + 4);
    expect_number("self-shadows", s.figures[VMD_SEASON_TOTAL + VMD_SELF_SHADOWS], 0);
    encode_in(&file, edition, &t, RAW);
    put(&file, file.at, 50);
    a = of_take(&t);
    trial("bytes after the last property frame");
    add(&s, &file, &a);
}

/* Takes that the strict manner refuses with 16 or 17 are accepted, and add what the lenient manner reads in them. */
static struct season damaged_season;
static size_t n_refused, n_strictly_refused;

static void add_damaged(const struct sample *d)
{
    int refused = d->reads.in[LENIENT] != VMD_OK;
    struct addition a = refused ? of_a_refused_one() : of_take(&d->means);
    n_refused += (size_t)refused;
    n_strictly_refused += d->reads.in[STRICT] != VMD_OK;
    trial("%s", d->name);
    add(&damaged_season, &d->file, &a);
}

static void damaged_takes(void)
{
    enum edition edition;
    trial("damaged takes");
    damaged_season = none();
    for (edition = NEWER; edition < EDITIONS; edition++)
        each_damaged(edition, RAW, add_damaged);
    trial("damaged takes");
    expect_number("refused", damaged_season.figures[VMD_SEASON_REFUSED], n_refused);
    expect(n_strictly_refused > n_refused, "no take that only the strict manner refuses");
}

/* ---- bytes that are not counted */

/* Names of each kind that repeat, of no, few and fifteen bytes, and one with a remark. */
static struct take repeated_names_take(void)
{
    static const char *const names[4] = {"arm", "", "arm\nleft", "fifteen letters"};
    struct take t = distinct_take(5, 4, 4, 3, 1, 1, 4);
    size_t i;
    for (i = 0; i < 4; i++) {
        t.bones[i].name = named(names[i]);
        t.morphs[i].name = named(names[3 - i]);
        t.properties[3].states[i % 3].name = named(names[i]);
    }
    return t;
}

/* The bytes are changed, one more each time: the figures stay the same. */
static void change(const char *what, uint8_t *from, const uint8_t *to, const struct addition *a)
{
    struct season s;
    for (; from < to; from++) {
        trial("%s: byte %zu changed", what, (size_t)(from - file.at));
        *from ^= (uint8_t)next_byte();
        s = none();
        add(&s, &file, a);
        s.figures[VMD_SEASON_BONE_NAMES] = 1; /* and after other takes */
        add(&s, &file, a);
    }
}

/* What comes after a name's zero; and of a bone's or a morph's, which are counted, after its line feed. */
static void change_after(int byte, const char *what, uint8_t *at, size_t width, const struct addition *a)
{
    uint8_t *end = memchr(at, byte, width);
    if (end != NULL)
        change(what, end + 1, at + width, a);
}

static void change_after_name(const char *what, uint8_t *at, size_t width, const struct addition *a)
{
    change_after(0, what, at, width, a);
}

static void change_in_field(const char *what, uint8_t *at, const struct addition *a)
{
    change_after_name(what, at, FIELD, a);
    change_after(LINE_FEED, what, at, FIELD, a);
}

static void bytes_not_counted(enum edition edition)
{
    static struct opening o;
    struct take t = repeated_names_take();
    struct addition a = of_take(&t);
    size_t i, j;
    trial("bytes that are not counted");
    expect_number("bone names", a.to[VMD_SEASON_BONE_NAMES], 3);
    expect_number("morph names", a.to[VMD_SEASON_MORPH_NAMES], 3);
    encode_in(&file, edition, &t, CANONICAL);
    expected_opening(STRICT, file.at, file.len, &o);
    for (i = 0; i < t.counts[0]; i++)
        change("a bone's interpolation", file.at + o.places[0] + 111 * i + 47, file.at + o.places[0] + 111 * i + 111, &a);
    for (i = 0; i < t.counts[2]; i++)
        change("a camera's interpolation", file.at + o.places[2] + 61 * i + 32, file.at + o.places[2] + 61 * i + 56, &a);
    encode_in(&file, edition, &t, CANONICAL);
    change("after the magic", file.at + MAGIC_TOLD, file.at + MAGIC_FIELD, &a);
    change_after_name("a model name", file.at + MAGIC_FIELD, editions[edition].model_width, &a);
    for (i = 0; i < t.counts[0]; i++)
        change_in_field("a bone's name", file.at + o.places[0] + 111 * i, &a);
    for (i = 0; i < t.counts[1]; i++)
        change_in_field("a morph's name", file.at + o.places[1] + 23 * i, &a);
    for (i = 0; i < o.n_frames; i++)
        for (j = 0; j < t.properties[i].n_states; j++)
            change_after_name("an IK name", file.at + o.frames[i] + 9 + 21 * j, 20, &a);
}

/* ---- names */

enum { SOME = 2200 };

/* A take of records with these names, so many of them different. */
static void try_fields(const char *what, const struct field *fields, size_t n, int morphs, size_t different)
{
    struct name model = name_in(&fields[0]);
    struct addition a;
    struct season s;
    struct bone bone;
    struct morph morph;
    size_t i;
    trial("%s: %zu %s", what, n, morphs ? "morphs" : "bones");
    memset(&bone, 0, sizeof bone);
    memset(&morph, 0, sizeof morph);
    memset(&a, 0, sizeof a);
    a.to[VMD_SEASON_TOTAL + (morphs ? VMD_MORPHS : VMD_BONES)] = a.to[VMD_SEASON_RECORDS] = n;
    a.to[morphs ? VMD_SEASON_MORPH_NAMES : VMD_SEASON_BONE_NAMES] = different;
    a.to[VMD_SEASON_ACCEPTED] = 1;
    file.len = 0;
    put_header(&file, &model, RAW);
    if (morphs)
        put_u32(&file, 0);
    put_u32(&file, (uint32_t)n);
    for (i = 0; i < n; i++) {
        size_t at = file.len;
        if (morphs)
            put_morph(&file, &morph, RAW);
        else
            put_bone(&file, &bone, RAW);
        memcpy(file.at + at, fields[i].at, FIELD);
    }
    s = none();
    add(&s, &file, &a);
}

/* Of bones and of morphs, in their order, turned round, and from the middle on. */
static void try_fields_in_orders(const char *what, const struct field *fields, size_t n, size_t different)
{
    static struct field other[SOME];
    size_t i;
    int morphs;
    for (morphs = 0; morphs < 2; morphs++) {
        try_fields(what, fields, n, morphs, different);
        for (i = 0; i < n; i++)
            other[i] = fields[n - 1 - i];
        try_fields(what, other, n, morphs, different);
        for (i = 0; i < n; i++)
            other[i] = fields[(i + n / 2) % n];
        try_fields(what, other, n, morphs, different);
    }
}

/* Bytes after a name's zero differ from record to record. */
static void try_names_in_orders(const char *what, const struct name *names, size_t n, size_t different)
{
    static struct field fields[SOME];
    size_t i, k;
    for (i = 0; i < n; i++) {
        memset(&fields[i], 0, sizeof *fields);
        memcpy(fields[i].at, names[i].at, names[i].len);
        for (k = names[i].len + 1; k < FIELD; k++)
            fields[i].at[k] = (uint8_t)next_byte();
    }
    try_fields_in_orders(what, fields, n, different);
}

/* One of the lists of names.h. */
static void try_list(const char *what, const struct field *fields, size_t n, size_t tracks)
{
    struct name names[MOST_FIELDS];
    size_t i;
    for (i = 0; i < n; i++)
        names[i] = name_in(&fields[i]);
    trial("%s", what);
    expect_number("the test's own tracks", distinct(names, n), tracks);
    try_fields_in_orders(what, fields, n, tracks);
}

static void names(void)
{
    static struct name all[SOME];
    static const char *const few[] = {
        "", "a", "", "b", "a", "ab", "aa", "b", "\xFF", "\x7F", "\x80", "\x0A", "a\x0A", "\x0A", "a\x0A" "b", "\x0A\x0A"
    };
    static const char *const remarks[] = {"A", "A\nx", "A\ny", "A\n", "A\n\nx"}, *const starts[] = {"\nx", "\n", "", "\n\n"};
    size_t i, n = sizeof few / sizeof *few;
    for (i = 0; i < n; i++)
        all[i] = named(few[i]);
    try_names_in_orders("empty, repeated and with line feeds", all, n, 8);
    for (i = 0; i < 5; i++)
        all[i] = named(remarks[i]);
    try_names_in_orders("one name with other remarks", all, 5, 1);
    try_names_in_orders("one with a remark and one without", all, 2, 1);
    for (i = 0; i < 4; i++)
        all[i] = named(starts[i]);
    try_names_in_orders("the empty name with remarks", all, 4, 1);
    try_names_in_orders("remarks alone", all, 2, 1);
    all[0] = named("");
    try_names_in_orders("one empty name", all, 1, 1);
    for (i = 0; i < 40; i++)
        all[i] = named("");
    try_names_in_orders("empty ones alone", all, 40, 1);
    for (i = 0; i < 40; i++)
        all[i] = named("fifteen letters");
    try_names_in_orders("one that fills its field", all, 40, 1);
    for (i = 0; i < 32; i++) {
        all[i] = named("fifteen letters");
        all[i].len = i % 16;
    }
    try_names_in_orders("each the next one's beginning, twice", all, 32, 16);
    for (i = 0; i < 60; i++) {
        all[i] = named("fifteen_letters");
        all[i].at[i / 4] ^= (uint8_t)(i % 4 << 5);
    }
    try_names_in_orders("other in one byte", all, 60, 1 + 15 * 3);
    for (i = 0; i < SOME; i++)
        all[i] = random_name();
    try_names_in_orders("few in any order", all, SOME, distinct(all, SOME));
    for (i = 0; i < SOME; i++) {
        all[i] = named("fifteen_letters");
        all[i].at[i % 15] = (uint8_t)(1 + i % 255);
        all[i].at[(i + 7) % 15] = (uint8_t)(1 + i / 255);
    }
    try_names_in_orders("many", all, SOME, distinct(all, SOME));
}

/*
 * Names that are numbers, so many of them different, again and again. With remarks, each record has another one: then its raw
 * name is no other record's.
 */
static void try_many_names(int section, uint32_t records, uint32_t different, int remarks)
{
    enum { MOST_RECORDS = 66000 };
    static uint8_t long_file[58 + VMD_BONE_SIZE * MOST_RECORDS];
    size_t head, size = record_sizes[section];
    struct name model = named("many");
    struct addition a;
    struct season s;
    uint32_t i;
    trial("%lu records of section %d, %lu names%s", (unsigned long)records, section, (unsigned long)different,
          remarks ? " with remarks" : "");
    file.len = 0;
    put_header(&file, &model, RAW);
    if (section == VMD_MORPHS)
        put_u32(&file, 0);
    put_u32(&file, records);
    head = file.len;
    memset(long_file, 0, sizeof long_file);
    memcpy(long_file, file.at, head);
    for (i = 0; i < records; i++) {
        unsigned long number = i % different * 3571 % different; /* a prime: all numbers come */
        sprintf((char *)long_file + head + size * i, remarks ? "%lu\n%lu" : "%lu", number, (unsigned long)i);
    }
    memset(&a, 0, sizeof a);
    a.to[VMD_SEASON_TOTAL + section] = a.to[VMD_SEASON_RECORDS] = records;
    a.to[VMD_SEASON_BONE_NAMES + section] = different;
    a.to[VMD_SEASON_ACCEPTED] = 1;
    s = none();
    add_bytes(&s, long_file, head + size * records, &a);
}

/* More different names than are counted in one pass over the records; none twice, each twice, and with remarks. */
static void many_names(void)
{
    static const uint32_t numbers[] = {1, 2, 300, 16383, 16384, 16385, 22000, 32767, 32768, 32769};
    size_t k;
    int section;
    try_many_names(VMD_MORPHS, 22000, 22000, 0);
    try_many_names(VMD_MORPHS, 22000, 11000, 0);
    for (k = 0; k < sizeof numbers / sizeof *numbers; k++)
        for (section = VMD_BONES; section <= VMD_MORPHS; section++)
            try_many_names(section, 66000, numbers[k], 1);
}

/* ---- figures at their largest values */

/* Numbers that say nothing, and leave room. */
static struct season some_season(void)
{
    struct season s;
    size_t k;
    for (k = 0; k < COUNTS; k++)
        s.counts[k] = (uint32_t)(3 + 7 * k % 5);
    for (k = 0; k < FIGURES; k++)
        s.figures[k] = 1000 + 17 * k;
    return s;
}

/* With refused takes up to their largest number; and with none accepted, where their number is not what has no room. */
static void try_limit(struct season s, const struct bytes *take, const struct addition *a)
{
    static const uint64_t refused[3] = {5, UINT64_MAX - 1, UINT64_MAX};
    size_t k;
    for (k = 0; k < 3; k++) {
        struct season tried = s;
        tried.figures[VMD_SEASON_REFUSED] = refused[k];
        add(&tried, take, a);
        if (s.figures[VMD_SEASON_ACCEPTED] >= most - 2)
            continue;
        tried = s;
        tried.figures[VMD_SEASON_REFUSED] = refused[k];
        tried.figures[VMD_SEASON_ACCEPTED] = 0;
        add(&tried, take, a);
    }
}

/* Each of the ten figures with less room than the take adds to it, with just as much, and with more. */
static void limits(void)
{
    static const char *const same[3] = {"a", "b", "a"};
    static struct bytes take;
    struct take t = distinct_take(2, 3, 4, 5, 6, 7, 8);
    struct addition a;
    struct season s;
    size_t k;
    uint64_t room;
    for (k = 0; k < 3; k++)
        t.bones[k].name = t.morphs[k].name = named(same[k]);
    a = of_take(&t);
    encode(&take, &t, RAW);
    for (k = 0; k < VMD_SEASON_REFUSED; k++)
        for (room = 0; room <= a.to[k] + 1; room++) {
            trial("room for %llu in figures[%zu], for %llu", (unsigned long long)room, k, (unsigned long long)a.to[k]);
            s = some_season();
            s.figures[k] = most - room;
            try_limit(s, &take, &a);
            if (room == a.to[k]) {
                s = some_season();
                s.figures[k] = most - room;
                add(&s, &take, &a);
                expect_number("largest value", s.figures[k], most);
                add(&s, &take, &a); /* and no more */
            }
        }
    trial("room for nothing anywhere");
    memset(s.figures, 0xFF, sizeof s.figures);
    try_limit(s, &take, &a);
    trial("just enough room everywhere");
    for (k = 0; k < VMD_SEASON_REFUSED; k++)
        s.figures[k] = most - a.to[k];
    try_limit(s, &take, &a);
    for (k = 0; k < VMD_SEASON_REFUSED; k++) {
        struct season one = s;
        one.figures[k] += 1;
        trial("just enough room everywhere but in figures[%zu]", k);
        try_limit(one, &take, &a);
    }
}

/* A take that adds nothing to a figure at its largest value is counted. */
static void nothing_added(void)
{
    static struct bytes take;
    struct take t;
    struct addition a;
    struct season s;
    size_t section;
    for (section = 0; section < SECTIONS; section++) {
        t = distinct_take(2, 3, 4, 5, 6, 7, 8);
        t.counts[section] = 0;
        a = of_take(&t);
        encode(&take, &t, RAW);
        trial("no records for a total at its largest value, section %zu", section);
        s = some_season();
        s.figures[VMD_SEASON_TOTAL + section] = most;
        if (section < 2)
            s.figures[VMD_SEASON_BONE_NAMES + section] = most;
        try_limit(s, &take, &a);
    }
    trial("no records at all");
    t = empty_take();
    a = of_take(&t);
    encode(&take, &t, CANONICAL);
    memset(s.figures, 0xFF, sizeof s.figures);
    s.figures[VMD_SEASON_ACCEPTED] -= 1;
    add(&s, &take, &a);
    expect_number("accepted", s.figures[VMD_SEASON_ACCEPTED], most);
    try_limit(s, &take, &a);
}

/* A file that cannot be read, whatever stands in the figures. */
static void refused_anyway(void)
{
    struct addition a = of_a_refused_one();
    struct season s = some_season();
    size_t i;
    file.len = 49;
    trial("a file that cannot be read");
    try_limit(s, &file, &a);
    memcpy(file.at, editions[OLDER].magic, MAGIC_TOLD);
    file.len = 39;
    trial("an older file that cannot be read");
    try_limit(s, &file, &a);
    file.len = 0;
    trial("no bytes at all");
    try_limit(s, &file, &a);
    memset(&s, 0xFF, sizeof s);
    try_limit(s, &file, &a);
    trial("three refusals up to the largest number");
    s = some_season();
    s.figures[VMD_SEASON_REFUSED] = most - 2;
    for (i = 0; i < 4; i++)
        add(&s, &file, &a);
    expect_number("refused", s.figures[VMD_SEASON_REFUSED], most);
}

/* ---- smallest and largest, whatever stands there */

static void smallest_and_largest(void)
{
    static const uint64_t accepted[4] = {0, 1, 1000, UINT64_MAX - 1};
    static struct bytes take;
    struct take t = distinct_take(3, 3, 4, 5, 6, 7, 8);
    struct addition a = of_take(&t);
    size_t k, i, j, l;
    encode(&take, &t, RAW);
    for (k = 0; k < SECTIONS; k++)
        for (i = 0; i < 5; i++)
            for (j = 0; j < 5; j++)
                for (l = 0; l < 4; l++) {
                    const uint32_t n = (uint32_t)t.counts[k], stood[5] = {0, n - 1, n, n + 1, UINT32_MAX};
                    struct season s = some_season();
                    s.counts[VMD_SEASON_SMALLEST + k] = stood[i];
                    s.counts[VMD_SEASON_LARGEST + k] = stood[j];
                    s.figures[VMD_SEASON_ACCEPTED] = accepted[l];
                    trial("%zu of section %zu after %lu and %lu, %llu accepted", t.counts[k], k, (unsigned long)stood[i],
                          (unsigned long)stood[j], (unsigned long long)accepted[l]);
                    add(&s, &take, &a);
                }
}

/* ---- the mean */

static void means(void)
{
    static const struct {
        uint64_t records, accepted, quotient, remainder;
    } told[] = {
        {0, 0, 0, 0},
        {1, 0, 0, 0},
        {UINT64_MAX, 0, 0, 0},
        {0, 1, 0, 0},
        {0, UINT64_MAX, 0, 0},
        {7, 1, 7, 0},
        {UINT64_MAX, 1, UINT64_MAX, 0},
        {7, 2, 3, 1},
        {7, 7, 1, 0},
        {7, 8, 0, 7},
        {UINT64_MAX, 2, 9223372036854775807u, 1},
        {UINT64_MAX, 10, 1844674407370955161u, 5},
        {UINT64_MAX, 4294967295u, 4294967297u, 0},
        {UINT64_MAX, 4294967296u, 4294967295u, 4294967295u},
        {UINT64_MAX, 9223372036854775808u, 1, 9223372036854775807u},
        {UINT64_MAX, UINT64_MAX - 1, 1, 1},
        {UINT64_MAX, UINT64_MAX, 1, 0},
        {UINT64_MAX - 1, UINT64_MAX, 0, UINT64_MAX - 1},
        {9007199254740993u, 1, 9007199254740993u, 0}, /* no double has it */
    };
    uint64_t figures[FIGURES];
    size_t i, k;
    for (i = 0; i < sizeof told / sizeof *told; i++) {
        trial("the mean of %llu records and %llu takes", (unsigned long long)told[i].records,
              (unsigned long long)told[i].accepted);
        for (k = 0; k < FIGURES; k++)
            figures[k] = random_figure();
        figures[VMD_SEASON_RECORDS] = told[i].records;
        figures[VMD_SEASON_ACCEPTED] = told[i].accepted;
        expect_mean(figures, told[i].quotient, told[i].remainder);
    }
    for (i = 0; i < 3000; i++) {
        trial("random mean %zu", i);
        for (k = 0; k < FIGURES; k++)
            figures[k] = random_figure();
        try_mean(figures);
    }
}

int main(void)
{
    enum edition edition;
    no_takes();
    lists();
    orders();
    sections_alone();
    for (edition = NEWER; edition < EDITIONS; edition++) {
        told_in_numbers(edition);
        cut_anywhere(edition);
        other_counts(edition);
        bytes_not_counted(edition);
    }
    damaged_takes();
    names();
    each_list(try_list);
    many_names();
    limits();
    nothing_added();
    refused_anyway();
    smallest_and_largest();
    means();
    any_numbers();
    return finished("season");
}
