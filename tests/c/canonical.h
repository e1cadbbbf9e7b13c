/*
 * Whether a file is canonical, and what saving would touch first, through the C interface, in both manners: the answers, the
 * slots and every byte of the file, against what the caller tells, and against the library's own export.
 */
#ifndef CANONICAL_H
#define CANONICAL_H

#include "check.h"
#include "damaged.h"
#include "manner.h"
#include "vmd.h"

static struct fence lent_asked, lent_canonical, lent_change;

/* "[..] the first place at which the file and its export differ or just one of them has ended" */
static inline size_t first_difference(const uint8_t *a, size_t a_len, const uint8_t *b, size_t b_len)
{
    size_t i = 0;
    while (i < a_len && i < b_len && a[i] == b[i])
        i++;
    return i == a_len && i == b_len ? UNCHANGED : i;
}

/* ---- one file as it is lent: it is refused, or saving would touch this place first */

static inline void ask_both(enum manner m, const uint8_t *file, size_t len, uint32_t number, size_t place)
{
    uint32_t *canonical = lend_unwritten(&lent_canonical, sizeof *canonical), yes = place == UNCHANGED;
    uint64_t *slot = lend_unwritten(&lent_change, 2 * sizeof *slot), change[2] = {0, 0};
    expect_number("is_canonical", is_canonical_in(m, file, len, canonical), number);
    expect_number("first_change", first_change_in(m, file, len, slot), number);
    if (number != VMD_OK) {
        expect_lent_unwritten("canonical", &lent_canonical);
        expect_lent_unwritten("change", &lent_change);
        return;
    }
    if (place != UNCHANGED)
        change[0] = 1, change[1] = place;
    expect_lent("canonical", &lent_canonical, &yes, sizeof yes);
    expect_number("changed", slot[0], change[0]);
    expect_number("place", slot[1], change[1]);
    expect_lent("change", &lent_change, change, sizeof change);
}

/* Before a page that cannot be touched, and behind one; then against the export. */
static inline void try_canonical_in(enum manner m, const uint8_t *file, size_t len, uint32_t number, size_t place)
{
    static uint8_t exported[FENCE_ROOM];
    uint64_t written = 0;
    ask_both(m, lend(&lent_asked, file, len), len, number, place);
    expect_lent("file", &lent_asked, file, len);
    ask_both(m, lend_first(&lent_asked, file, len), len, number, place);
    expect_lent_first("file", &lent_asked, file, len);
    expect_number("export_animation", export_in(m, file, len, exported, sizeof exported, &written), number);
    if (number == VMD_OK)
        expect_number("the export's first difference", first_difference(file, len, exported, written), place);
}

/* ---- a file in both manners: where it is read saving would touch this place first */

static inline void try_canonical(const uint8_t *file, size_t len, struct reading reads, size_t place)
{
    enum manner m;
    expect(reads.in[STRICT] == reads.in[LENIENT] || place != UNCHANGED, "canonical in one manner, and refused in the other");
    for (m = STRICT; m < MANNERS; m++)
        try_canonical_in(m, file, len, reads.in[m], place);
}

/* What a file means is told too: the test's own encoder gives the same first difference. */
static inline void try_canonical_told(const struct sample *s)
{
    static struct bytes exported;
    if (s->reads.in[LENIENT] == VMD_OK) {
        encode(&exported, &s->means, CANONICAL);
        expect_number("the test's own first difference",
                      first_difference(s->file.at, s->file.len, exported.at, exported.len), s->change);
    }
    try_canonical(s->file.at, s->file.len, s->reads, s->change);
}

#endif
