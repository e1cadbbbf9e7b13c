/* Fetching by number: any file with any opening and scratch, the slots, and the calls for property frames and IK states. */
#ifndef FETCH_H
#define FETCH_H

#include "check.h"
#include "expect.h"
#include "open.h"
#include "vmd.h"

static struct fence lent_slot;

/* The view's slices, lent, so that a call that goes past one of them is seen. */
static inline struct view lend_view(const uint8_t *file, size_t len, const uint32_t counts[6], const uint64_t places[6],
                                    const uint64_t *scratch, size_t scratch_len)
{
    struct view v;
    v.file = lend(&lent_file, file, len);
    v.len = len;
    v.counts = lend(&lent_counts, counts, 6 * sizeof *counts);
    v.places = lend(&lent_places, places, 6 * sizeof *places);
    v.scratch = lend(&lent_scratch, scratch, scratch_len * sizeof *scratch);
    v.scratch_len = scratch_len;
    return v;
}

/* Nothing that is only read has changed. */
static inline void expect_view(const uint8_t *file, size_t len, const uint32_t counts[6], const uint64_t places[6],
                               const uint64_t *scratch, size_t scratch_len)
{
    expect_lent("file", &lent_file, file, len);
    expect_lent("counts", &lent_counts, counts, 6 * sizeof *counts);
    expect_lent("places", &lent_places, places, 6 * sizeof *places);
    expect_lent("scratch", &lent_scratch, scratch, scratch_len * sizeof *scratch);
}

/* The slot of a call that fetches: what it must have after the answer. */
static inline void expect_fetched(const char *what, uint32_t got, const uint8_t *record, const void *expected, size_t n)
{
    expect_number(what, got, record == NULL ? VMD_OUTSIDE : VMD_OK);
    if (record == NULL)
        expect_lent_unwritten(what, &lent_slot);
    else
        expect_lent(what, &lent_slot, expected, n);
}

static inline void expect_part_slot(const char *what, const uint64_t expected[2])
{
    expect_lent(what, &lent_slot, expected, 2 * sizeof *expected);
}

#define VIEW(v) (v)->file, (v)->len, (v)->counts, (v)->places
#define SCRATCH(v) (v)->scratch, (v)->scratch_len

static inline void property_fields(const uint8_t *r, uint32_t record[3])
{
    record[0] = u32_at(r);
    record[1] = r[4] != 0;
    record[2] = u32_at(r + 5);
}

static inline void fetch_property(const struct view *v, size_t i)
{
    const uint8_t *r = expected_property(v, i);
    uint32_t record[3] = {0};
    if (r != NULL)
        property_fields(r, record);
    expect_fetched("property_frame", vmd_property_frame(VIEW(v), SCRATCH(v), i, lend_unwritten(&lent_slot, sizeof record)),
                   r, record, sizeof record);
}

static inline void fetch_state(const struct view *v, size_t i, size_t j)
{
    const uint8_t *r = expected_state(v, i, j);
    uint32_t enabled = r != NULL && r[20] != 0;
    uint64_t part[2];
    expect_fetched("ik_state", vmd_ik_state(VIEW(v), SCRATCH(v), i, j, lend_unwritten(&lent_slot, sizeof enabled)), r,
                   &enabled, sizeof enabled);
    expected_name(v, r, 20, part);
    vmd_ik_name(VIEW(v), SCRATCH(v), i, j, lend_unwritten(&lent_slot, sizeof part));
    expect_part_slot("ik_name", part);
}

#endif
