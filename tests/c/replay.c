/*
 * Replays the original Rust's answers through the C interface: the cases on standard input (tests/c/replay.cases), which
 * oracle/samples.sh writes anew and whose format oracle/README.md has. An answer is compared by its number and its digest.
 * To an older file it is the original's answer to its widened file. Columns are lent as the list has them, the lowest byte
 * first.
 *
 * The original's reading is the lenient manner's. The strict calls are made beside it: what they do not refuse for bytes
 * over or an oversized count is the same answer.
 */
#include "check.h"
#include "expect.h"
#include "manner.h"
#include "open.h"
#include "parts.h"
#include "take.h"
#include "vmd.h"

static struct fence lent_out, lent_slot;

/* ---- the list of cases */

enum { OPEN = 1, EXPORT, JOIN, BUILD, CONVERT, KINDS };

/* How many strings a case of a kind has, and how many such cases there have to be. */
static const struct {
    const char *name;
    size_t strings;
    unsigned long cases;
} kinds[KINDS] = {
    {"", 0, 0}, {"opened", 1, 1279}, {"exported", 1, 974}, {"joined", 2, 339}, {"built", SLICES, 423}, {"converted", 1, 290},
};

/* The bytes of an element in each string of a build. */
static const size_t element_sizes[SLICES] = {1, 1, 4, 1, 4, 1, 1, 1, 1, 4, 4, 4, 4, 1, 4, 4, 4};

/* What was asked, and what the original gave. */
struct recorded {
    uint32_t kind, answer, digest, out_len;
    struct slice strings[SLICES];
};

struct list {
    const uint8_t *at;
    size_t left;
};

/* Each of these is 0 where the list does not hold all of it. */
static int read_bytes(struct list *l, size_t n, const uint8_t **at)
{
    if (l->left < n)
        return 0;
    *at = l->at;
    l->at += n;
    l->left -= n;
    return 1;
}

static int read_number(struct list *l, uint32_t *n)
{
    const uint8_t *at;
    if (!read_bytes(l, 4, &at))
        return 0;
    *n = u32_at(at);
    return 1;
}

static int read_string(struct list *l, size_t size, struct slice *s)
{
    const uint8_t *at;
    uint32_t n;
    if (!read_number(l, &n) || n % size != 0 || !read_bytes(l, n, &at))
        return 0;
    s->at = at;
    s->len = n / size;
    s->size = size;
    return 1;
}

static int read_case(struct list *l, struct recorded *r)
{
    uint32_t strings;
    size_t k;
    if (!read_number(l, &r->kind) || !read_number(l, &r->answer) || !read_number(l, &r->digest)
        || !read_number(l, &r->out_len) || !read_number(l, &strings))
        return 0;
    if (r->kind < OPEN || r->kind >= KINDS || strings != kinds[r->kind].strings)
        return 0;
    for (k = 0; k < strings; k++)
        if (!read_string(l, r->kind == BUILD ? element_sizes[k] : 1, &r->strings[k]))
            return 0;
    return 1;
}

/* ---- digests: 32 bits of FNV-1a */

static uint32_t digest;

static void digest_byte(uint32_t byte)
{
    digest = (digest ^ byte) * 16777619u;
}

static void digest_bytes(const uint8_t *at, size_t n)
{
    size_t i;
    for (i = 0; i < n; i++)
        digest_byte(at[i]);
}

static void digest_number(uint32_t n)
{
    digest_byte(n & 255);
    digest_byte(n >> 8 & 255);
    digest_byte(n >> 16 & 255);
    digest_byte(n >> 24);
}

static void digest_numbers(const uint32_t *numbers, size_t n)
{
    size_t i;
    for (i = 0; i < n; i++)
        digest_number(numbers[i]);
}

/* ---- opening, and every record by its number */

/* A file, lent, and what opening it gave. */
struct opened {
    const uint8_t *file;
    size_t len;
    uint32_t counts[6];
    uint64_t places[6], totals[3], *scratch;
    size_t scratch_len;
};

#define FILE_OF(o) (o)->file, (o)->len
#define OPENING(o) FILE_OF(o), (o)->counts, (o)->places
#define SCRATCHED(o) OPENING(o), (o)->scratch, (o)->scratch_len

static void digest_part(const struct opened *o, const uint64_t part[2])
{
    int inside = part[0] <= o->len && part[1] <= o->len - part[0];
    expect(inside, "a part lies outside the file");
    if (inside)
        digest_bytes(o->file + part[0], part[1]);
}

/* The length in one byte, and then the bytes. */
static void digest_name(const struct opened *o, const uint64_t part[2])
{
    digest_byte(part[1] & 255);
    digest_part(o, part);
}

static void digest_bone(const struct opened *o, size_t i)
{
    uint64_t part[2];
    uint32_t record[8] = {0};
    vmd_bone_name(OPENING(o), i, part);
    digest_name(o, part);
    expect_number("bone", vmd_bone_frame(OPENING(o), i, record), VMD_OK);
    digest_numbers(record, 8);
    vmd_bone_interpolation(OPENING(o), i, part);
    digest_part(o, part);
}

static void digest_morph(const struct opened *o, size_t i)
{
    uint64_t part[2];
    uint32_t record[2] = {0};
    vmd_morph_name(OPENING(o), i, part);
    digest_name(o, part);
    expect_number("morph", vmd_morph_frame(OPENING(o), i, record), VMD_OK);
    digest_numbers(record, 2);
}

/* The interpolation bytes stand between the fields. */
static void digest_camera(const struct opened *o, size_t i)
{
    uint64_t part[2];
    uint32_t record[10] = {0};
    expect_number("camera", vmd_camera_frame(OPENING(o), i, record), VMD_OK);
    digest_numbers(record, 8);
    vmd_camera_interpolation(OPENING(o), i, part);
    digest_part(o, part);
    digest_number(record[8]);
    digest_byte(record[9]);
}

static void digest_light(const struct opened *o, size_t i)
{
    uint32_t record[7] = {0};
    expect_number("light", vmd_light_frame_bits(OPENING(o), i, record), VMD_OK);
    digest_numbers(record, 7);
}

static void digest_self_shadow(const struct opened *o, size_t i)
{
    uint32_t record[3] = {0};
    expect_number("self-shadow", vmd_self_shadow_frame(OPENING(o), i, record), VMD_OK);
    digest_number(record[0]);
    digest_byte(record[1]);
    digest_number(record[2]);
}

static void digest_property(const struct opened *o, size_t i)
{
    uint64_t part[2];
    uint32_t record[3] = {0}, enabled = 0;
    size_t j;
    expect_number("property", vmd_property_frame(SCRATCHED(o), i, record), VMD_OK);
    digest_number(record[0]);
    digest_byte(record[1]);
    digest_number(record[2]);
    for (j = 0; j < record[2]; j++) {
        vmd_ik_name(SCRATCHED(o), i, j, part);
        digest_name(o, part);
        expect_number("IK state", vmd_ik_state(SCRATCHED(o), i, j, &enabled), VMD_OK);
        digest_byte(enabled);
    }
}

static void digest_take(const struct opened *o)
{
    static void (*const digest_record[6])(const struct opened *, size_t) = {
        digest_bone, digest_morph, digest_camera, digest_light, digest_self_shadow, digest_property
    };
    uint64_t part[2];
    size_t s, i;
    digest_numbers(o->counts, 6);
    for (s = 0; s < 3; s++)
        digest_number((uint32_t)o->totals[s]);
    vmd_model_name(FILE_OF(o), part);
    digest_part(o, part);
    for (s = 0; s < 6; s++)
        for (i = 0; i < o->counts[s]; i++)
            digest_record[s](o, i);
}

static uint32_t opened(enum manner m, const struct recorded *r)
{
    const struct slice *f = &r->strings[0];
    struct opened o;
    uint32_t answer;
    memset(&o, UNWRITTEN, sizeof o);
    o.file = lend(&lent[0], f->at, f->len);
    o.len = f->len;
    o.scratch_len = (f->len / VMD_PROPERTY_SIZE + 15) / 16; /* enough for any file of this length */
    o.scratch = lend_unwritten(&lent_scratch, o.scratch_len * sizeof *o.scratch);
    answer = parse_in(m, FILE_OF(&o), o.scratch, o.scratch_len, o.counts, o.places, o.totals);
    if (answer == VMD_OK) {
        digest_take(&o);
    } else {
        expect_unwritten("counts", o.counts, sizeof o.counts);
        expect_unwritten("places", o.places, sizeof o.places);
        expect_unwritten("totals", o.totals, sizeof o.totals);
        expect_lent_unwritten("scratch", &lent_scratch);
    }
    expect_lent("file", &lent[0], f->at, f->len);
    return answer;
}

/* ---- calls that write a file */

/* The digest goes over the whole output, also past what was written, and the number of bytes written, 0 in a refusal. */
static void digest_output(uint32_t answer, const uint64_t *written)
{
    expect_unwritten("before the output", lent_out.at - 64, 64);
    digest_bytes(lent_out.at, lent_out.len);
    digest_number(answer == VMD_OK ? (uint32_t)*written : 0);
    if (answer != VMD_OK)
        expect_lent_unwritten("written", &lent_slot);
    else if (*written <= lent_out.len)
        expect_written(lent_out.at, *written);
}

static uint32_t export_of(enum manner m, const struct slice *file, uint8_t *out, size_t out_len, uint64_t *slot)
{
    const uint8_t *f = lend(&lent[0], file->at, file->len);
    uint32_t answer = export_in(m, f, file->len, out, out_len, slot);
    expect_lent("file", &lent[0], file->at, file->len);
    return answer;
}

static uint32_t older_export_of(enum manner m, const struct slice *file, uint8_t *out, size_t out_len, uint64_t *slot)
{
    const uint8_t *f = lend(&lent[0], file->at, file->len);
    uint32_t answer = older_in(m, f, file->len, out, out_len, slot);
    expect_lent("file", &lent[0], file->at, file->len);
    return answer;
}

static uint32_t join_of(enum manner m, const struct slice files[2], uint8_t *out, size_t out_len, uint64_t *slot)
{
    const uint8_t *first = lend(&lent[0], files[0].at, files[0].len), *second = lend(&lent[1], files[1].at, files[1].len);
    uint32_t answer = join_in(m, first, files[0].len, second, files[1].len, out, out_len, slot);
    expect_lent("first file", &lent[0], files[0].at, files[0].len);
    expect_lent("second file", &lent[1], files[1].at, files[1].len);
    return answer;
}

/* Building reads no take, and has no manner. */
static uint32_t written(enum manner m, const struct recorded *r)
{
    uint8_t *out = lend_unwritten(&lent_out, r->out_len);
    uint64_t *slot = lend_unwritten(&lent_slot, sizeof *slot);
    uint32_t answer = r->kind == EXPORT ? export_of(m, r->strings, out, r->out_len, slot)
        : r->kind == JOIN               ? join_of(m, r->strings, out, r->out_len, slot)
        : r->kind == CONVERT            ? older_export_of(m, r->strings, out, r->out_len, slot)
                                        : build_with(r->strings, out, r->out_len, 0, slot);
    digest_output(answer, slot);
    return answer;
}

/* ---- the answer in a manner, and its digest */

static uint32_t answered(enum manner m, const struct recorded *r)
{
    digest = 2166136261u;
    return r->kind == OPEN ? opened(m, r) : written(m, r);
}

/* The digest of a refusal: no records, or an output that has not been written. */
static uint32_t digest_of_none(const struct recorded *r)
{
    static const uint8_t unwritten = UNWRITTEN;
    size_t i;
    digest = 2166136261u;
    for (i = 0; r->kind != OPEN && i < r->out_len; i++)
        digest_bytes(&unwritten, 1);
    if (r->kind != OPEN)
        digest_number(0);
    return digest;
}

/* What reading the case's files gives, the first one's refusals first. */
static struct reading read_files(const struct recorded *r)
{
    static struct opening o;
    struct reading reads = alike(VMD_OK);
    size_t k;
    for (k = 0; r->kind != BUILD && k < kinds[r->kind].strings; k++)
        reads = then(reads, expected_reading(r->strings[k].at, r->strings[k].len, &o));
    return reads;
}

/* ---- all cases */

static unsigned long cases[KINDS], different, over, oversized;

/* The strict answer is one of reading's, or the recorded one, byte for byte. */
static void replay_strictly(const struct recorded *r)
{
    struct reading reads = read_files(r);
    uint32_t answer = answered(STRICT, r), got = digest;
    over += answer == VMD_BYTES_OVER;
    oversized += answer == VMD_COUNT_OVERSIZED;
    expect_number("what the recorded answer says of reading", first_of(reads.in[LENIENT], r->answer), r->answer);
    expect_number("answer", answer, first_of(reads.in[STRICT], r->answer));
    expect_number("digest", got, reads.in[STRICT] == VMD_OK ? r->digest : digest_of_none(r));
}

static void replay(const struct recorded *r)
{
    unsigned long before = failures;
    expect_number("answer", answered(LENIENT, r), r->answer);
    expect_number("digest", digest, r->digest);
    if (r->kind != BUILD)
        replay_strictly(r);
    different += failures > before;
}

static void replay_all(struct list l)
{
    unsigned long n;
    struct recorded r;
    for (n = 1; l.left > 0; n++) {
        trial("case %lu", n);
        if (!read_case(&l, &r)) {
            expect(0, "malformed");
            return;
        }
        trial("case %lu, to be %s", n, kinds[r.kind].name);
        cases[r.kind]++;
        replay(&r);
    }
}

static void print_tally(FILE *to)
{
    int k;
    fprintf(to, "replay:");
    for (k = OPEN; k < KINDS; k++)
        fprintf(to, " %lu %s,", cases[k], kinds[k].name);
    fprintf(to, " %lu otherwise; strictly %lu are 16 and %lu are 17\n", different, over, oversized);
}

int main(void)
{
    static uint8_t all[1 << 20];
    struct list l;
    int k;
    l.at = all;
    l.left = fread(all, 1, sizeof all, stdin);
    trial("the list");
    expect(l.left < sizeof all, "too long for the test's buffer");
    replay_all(l);
    trial("the list");
    for (k = OPEN; k < KINDS; k++)
        expect_number(kinds[k].name, cases[k], kinds[k].cases);
    expect(over > 0 && oversized > 0, "no case that the strict manner alone refuses");
    print_tally(failures > 0 ? stderr : stdout);
    return failures > 0;
}
