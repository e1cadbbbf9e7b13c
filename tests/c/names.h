/*
 * What tells tracks apart: the bytes of a name up to its first line feed; what comes after it is a remark (request k)). And
 * lists of names of which just that decides who belongs together.
 */
#ifndef NAMES_H
#define NAMES_H

#include "take.h"

enum { LINE_FEED = 0x0A };

/* A name up to its first line feed; all of it where it has none. */
static inline struct name without_remark(const struct name *name)
{
    struct name cut = *name;
    cut.len = 0;
    while (cut.len < name->len && name->at[cut.len] != LINE_FEED)
        cut.len++;
    return cut;
}

/* "Two names now belong to one track when they agree up to the first byte 0x0A" */
static inline int same_track(const struct name *a, const struct name *b)
{
    struct name x = without_remark(a), y = without_remark(b);
    return x.len == y.len && memcmp(x.at, y.at, x.len) == 0;
}

/* ---- fields */

enum { FIELD = 15 };

/* A bone's or a morph's name as a file has it, with the bytes after its zero. */
struct field {
    uint8_t at[FIELD];
};

static inline struct name name_in(const struct field *field)
{
    struct name n;
    memset(&n, 0, sizeof n);
    for (; n.len < FIELD && field->at[n.len] != 0; n.len++)
        n.at[n.len] = field->at[n.len];
    return n;
}

/* A byte at a place of the field changed; where there is no such place, nothing. */
static inline struct field with(struct field field, size_t place, unsigned byte)
{
    if (place < FIELD)
        field.at[place] = (uint8_t)byte;
    return field;
}

/* ---- lists of fields, with the number of tracks that they make: it is told here, so that same_track is held to it */

enum { MOST_FIELDS = 256 };

typedef void (*fields_trial)(const char *what, const struct field *fields, size_t n, size_t tracks);

/* Letters, and bytes that could be taken for a line feed or a zero where several are looked at together. */
static const char *const fillings[] = {
    "fifteen letters", "\x0B\x0B\x0B\x0B\x0B\x0B\x0B\x0B\x0B\x0B\x0B\x0B\x0B\x0B\x0B",
    "\x8A\x8A\x8A\x8A\x8A\x8A\x8A\x8A\x8A\x8A\x8A\x8A\x8A\x8A\x8A",
    "\x01\x80\x01\x09\x8B\x1A\x0B\x01\xFF\x0D\x0B\x8A\x4A\x09\x01"
};

/* A line feed at a place, just before and just after it: with remarks of any length, beside a zero, and behind one. */
static inline void line_feeds_at(size_t place, struct field filled, const char *what, fields_trial try)
{
    const struct field at = with(filled, place, LINE_FEED), ends = with(filled, place, 0);
    const struct field list[] = {
        ends, at, with(at, place + 1, 0), with(at, place + 1, LINE_FEED), with(at, place + 1, 'x'), with(at, 14, LINE_FEED),
        with(ends, place + 1, LINE_FEED), with(ends, 14, LINE_FEED),
        filled, with(filled, place + 1, 0), with(filled, place + 1, LINE_FEED),
        with(with(filled, place + 1, 0), place + 2, LINE_FEED),
        with(filled, place - 1, 0), with(filled, place - 1, LINE_FEED),
    };
    try(what, list, sizeof list / sizeof *list, 2u + (place < 14) + (place > 0));
}

/* Every byte: zero and the line feed make the shorter name's track, each other one a track of its own. */
static inline void bytes_at(size_t place, struct field filled, const char *what, fields_trial try)
{
    struct field list[256];
    unsigned byte;
    for (byte = 0; byte < 256; byte++)
        list[byte] = with(filled, place, byte);
    try(what, list, 256, 1 + 254);
}

/* Two bytes beside one another: where the first is a zero or a line feed, the second does not count. */
static inline void pairs_at(size_t place, struct field filled, const char *what, fields_trial try)
{
    static const uint8_t bytes[] = {0x0B, LINE_FEED, 0x8A, 0, 0x01, 0x09, 0x0D, 0x1A, 0x80, 0x8B, 0xF5, 0xFF};
    enum { BYTES = sizeof bytes };
    struct field list[BYTES * BYTES];
    size_t i;
    for (i = 0; i < BYTES * BYTES; i++)
        list[i] = with(with(filled, place, bytes[i / BYTES]), place + 1, bytes[i % BYTES]);
    try(what, list, BYTES * BYTES, 1 + (BYTES - 2) + (BYTES - 2) * (BYTES - 2));
}

/* At every place of a name. */
static inline void each_list(fields_trial try)
{
    char what[64];
    size_t k, place;
    for (k = 0; k < sizeof fillings / sizeof *fillings; k++)
        for (place = 0; place < FIELD; place++) {
            struct field filled;
            memcpy(filled.at, fillings[k], FIELD);
            snprintf(what, sizeof what, "line feeds around place %zu, filling %zu", place, k);
            line_feeds_at(place, filled, what, try);
            snprintf(what, sizeof what, "every byte at place %zu, filling %zu", place, k);
            bytes_at(place, filled, what, try);
            if (place + 1 == FIELD)
                continue;
            snprintf(what, sizeof what, "two bytes at place %zu, filling %zu", place, k);
            pairs_at(place, filled, what, try);
        }
}

#endif
