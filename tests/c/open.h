/*
 * Opening, through the C interface, in both manners: the answer, every slot and every scratch place, against what expect.h
 * expects.
 */
#ifndef OPEN_H
#define OPEN_H

#include "check.h"
#include "expect.h"
#include "vmd.h"

static struct fence lent_file, lent_scratch, lent_counts, lent_places, lent_totals;

/* One opening with a scratch of this length. */
static inline void open_with(enum manner manner, const uint8_t *file, size_t len, size_t scratch_len, uint32_t number,
                             const struct opening *o)
{
    uint8_t *f = lend(&lent_file, file, len);
    uint64_t *scratch = lend_unwritten(&lent_scratch, scratch_len * sizeof *scratch);
    uint32_t *counts = lend_unwritten(&lent_counts, sizeof o->counts);
    uint64_t *places = lend_unwritten(&lent_places, sizeof o->places);
    uint64_t *totals = lend_unwritten(&lent_totals, sizeof o->totals);

    expect_number("parse_animation", parse_in(manner, f, len, scratch, scratch_len, counts, places, totals), number);
    expect_lent("file", &lent_file, file, len);
    if (number != VMD_OK) {
        expect_lent_unwritten("counts", &lent_counts);
        expect_lent_unwritten("places", &lent_places);
        expect_lent_unwritten("totals", &lent_totals);
        expect_lent_unwritten("scratch", &lent_scratch);
        return;
    }
    expect_lent("counts", &lent_counts, o->counts, sizeof o->counts);
    expect_lent("places", &lent_places, o->places, sizeof o->places);
    expect_lent("totals", &lent_totals, o->totals, sizeof o->totals);
    expect_unwritten("before the scratch", lent_scratch.at - 64, 64);
    if (o->n_places > 0)
        expect_bytes("scratch", scratch, o->scratch, o->n_places * sizeof *scratch);
    if (scratch_len > o->n_places)
        expect_unwritten("further scratch places", scratch + o->n_places, (scratch_len - o->n_places) * sizeof *scratch);
}

/* Opens a file with a scratch of just the places that it needs, of more, of none and of one less. */
static inline uint32_t try_opening_in(enum manner manner, const uint8_t *file, size_t len, struct opening *o)
{
    uint32_t number = expected_opening(manner, file, len, o);
    uint32_t without = number == VMD_OK && o->n_places > 0 ? VMD_SCRATCH_TOO_SHORT : number;
    open_with(manner, file, len, o->n_places, number, o);
    open_with(manner, file, len, o->n_places + 5, number, o);
    open_with(manner, file, len, 0, without, o);
    if (o->n_places > 1)
        open_with(manner, file, len, o->n_places - 1, without, o);
    return number;
}

/* The same in both manners, as expected_reading gives them. */
static inline struct reading try_opening(const uint8_t *file, size_t len, struct opening *o)
{
    uint32_t strict = try_opening_in(STRICT, file, len, o);
    return reading(strict, try_opening_in(LENIENT, file, len, o));
}

/* The same of a file whose reading and frames the caller tells, so that expect.h is held to them too. */
static inline void try_frames(const struct bytes *file, struct reading reads, uint64_t smallest, uint64_t largest)
{
    struct opening o;
    expect_reading("refusal", try_opening(file->at, file->len, &o), reads);
    expect_number("smallest frame", o.totals[VMD_TOTAL_SMALLEST_FRAME], smallest);
    expect_number("largest frame", o.totals[VMD_TOTAL_LARGEST_FRAME], largest);
}

/* The strict manner accepts a file, and both give the same opening. */
static inline void expect_opens_alike(const uint8_t *file, size_t len)
{
    enum { ENOUGH = (FENCE_ROOM / 9 + 15) / 16 };
    static uint64_t scratch[MANNERS][ENOUGH];
    struct {
        uint32_t counts[6];
        uint64_t places[6], totals[3];
    } got[MANNERS];
    size_t places = (len / 9 + 15) / 16;
    enum manner m;
    memset(got, UNWRITTEN, sizeof got);
    for (m = STRICT; m < MANNERS; m++) {
        memset(scratch[m], UNWRITTEN, places * sizeof *scratch[m]);
        expect_number("parse_animation of what was written",
                      parse_in(m, file, len, scratch[m], places, got[m].counts, got[m].places, got[m].totals), VMD_OK);
    }
    expect_bytes("the other manner's opening", &got[LENIENT], &got[STRICT], sizeof *got);
    expect_bytes("the other manner's scratch", scratch[LENIENT], scratch[STRICT], places * sizeof *scratch[0]);
}

/* What a call has written: it opens alike, and saving it would touch nothing, but for the magic of the older edition. */
static inline void expect_written(const uint8_t *file, size_t len)
{
    enum edition edition = EDITIONS;
    enum manner m;
    expect_opens_alike(file, len);
    expected_header(file, len, &edition);
    for (m = STRICT; m < MANNERS; m++) {
        uint32_t canonical = UNWRITTEN;
        uint64_t change[2] = {UNWRITTEN, UNWRITTEN};
        expect_number("is_canonical of what was written", is_canonical_in(m, file, len, &canonical), VMD_OK);
        expect_number("what was written, canonical", canonical, edition == NEWER);
        expect_number("first_change of what was written", first_change_in(m, file, len, change), VMD_OK);
        expect_number("what was written, changed", change[0], edition == OLDER);
        expect_number("what was written, the place", change[1], edition == OLDER ? MAGICS_DIFFER : 0);
    }
}

#endif
