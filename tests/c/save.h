/*
 * Saving and joining, through the C interface, in both manners: the answer, the slot, every byte of the output and of the
 * files, against bytes that the caller tells.
 */
#ifndef SAVE_H
#define SAVE_H

#include "check.h"
#include "manner.h"
#include "open.h"
#include "take.h"
#include "vmd.h"

static struct fence lent_first, lent_second, lent_out, lent_written, lent_model;

/* ---- one call, whose output is this long */

static inline void expect_output(const char *what, uint32_t got, uint32_t number, const struct bytes *expected,
                                 size_t out_len)
{
    uint64_t len = expected == NULL ? 0 : expected->len;
    expect_number(what, got, number);
    if (number != VMD_OK) {
        expect_lent_unwritten(what, &lent_out);
        expect_lent_unwritten(what, &lent_written);
        return;
    }
    expect_lent(what, &lent_written, &len, sizeof len);
    expect_unwritten(what, lent_out.at - 64, 64);
    if (out_len > 0)
        expect_bytes(what, lent_out.at, expected->at, expected->len);
    if (out_len > expected->len)
        expect_unwritten(what, lent_out.at + expected->len, out_len - expected->len);
}

static inline void export_into(enum manner m, const struct bytes *file, uint32_t number, const struct bytes *expected,
                               size_t out_len)
{
    uint8_t *f = lend(&lent_first, file->at, file->len), *out = lend_unwritten(&lent_out, out_len);
    uint64_t *written = lend_unwritten(&lent_written, sizeof *written);
    expect_output("export_animation", export_in(m, f, file->len, out, out_len, written), number, expected, out_len);
    expect_lent("file", &lent_first, file->at, file->len);
}

static inline void older_into(enum manner m, const struct bytes *file, uint32_t number, const struct bytes *expected,
                              size_t out_len)
{
    uint8_t *f = lend(&lent_first, file->at, file->len), *out = lend_unwritten(&lent_out, out_len);
    uint64_t *written = lend_unwritten(&lent_written, sizeof *written);
    expect_output("export_older_animation", older_in(m, f, file->len, out, out_len, written), number, expected, out_len);
    expect_lent("file", &lent_first, file->at, file->len);
}

static inline void join_into(enum manner m, const struct bytes *first, const struct bytes *second, uint32_t number,
                             const struct bytes *expected, size_t out_len)
{
    uint8_t *f = lend(&lent_first, first->at, first->len), *s = lend(&lent_second, second->at, second->len);
    uint8_t *out = lend_unwritten(&lent_out, out_len);
    uint64_t *written = lend_unwritten(&lent_written, sizeof *written);
    expect_output("join_animations", join_in(m, f, first->len, s, second->len, out, out_len, written), number, expected,
                  out_len);
    expect_lent("first file", &lent_first, first->at, first->len);
    expect_lent("second file", &lent_second, second->at, second->len);
}

static inline void expect_size(const char *what, uint32_t got, uint32_t number, uint64_t size)
{
    expect_number(what, got, number);
    if (number == VMD_OK)
        expect_lent(what, &lent_written, &size, sizeof size);
    else
        expect_lent_unwritten(what, &lent_written);
}

static inline void size_of_export(enum manner m, const struct bytes *file, uint32_t number, uint64_t size)
{
    uint8_t *f = lend(&lent_first, file->at, file->len);
    expect_size("export_size", export_size_in(m, f, file->len, lend_unwritten(&lent_written, 8)), number, size);
    expect_lent("file", &lent_first, file->at, file->len);
}

static inline void size_of_older(enum manner m, const struct bytes *file, uint32_t number, uint64_t size)
{
    uint8_t *f = lend(&lent_first, file->at, file->len);
    expect_size("export_older_size", older_size_in(m, f, file->len, lend_unwritten(&lent_written, 8)), number, size);
    expect_lent("file", &lent_first, file->at, file->len);
}

static inline void size_of_join(enum manner m, const struct bytes *first, const struct bytes *second, uint32_t number,
                                uint64_t size)
{
    uint8_t *f = lend(&lent_first, first->at, first->len), *s = lend(&lent_second, second->at, second->len);
    expect_size("join_size", join_size_in(m, f, first->len, s, second->len, lend_unwritten(&lent_written, 8)), number, size);
    expect_lent("first file", &lent_first, first->at, first->len);
    expect_lent("second file", &lent_second, second->at, second->len);
}

static inline void expect_joined_model(const struct bytes *first, const struct bytes *second,
                                       const uint64_t part[3])
{
    uint8_t *f = lend(&lent_first, first->at, first->len), *s = lend(&lent_second, second->at, second->len);
    vmd_joined_model(f, first->len, s, second->len, lend_unwritten(&lent_model, 24));
    expect_lent("joined_model", &lent_model, part, 24);
    expect_lent("first file", &lent_first, first->at, first->len);
    expect_lent("second file", &lent_second, second->at, second->len);
}

/* ---- a file in both manners: where it is read it is to be these bytes, else it is refused whatever the output's length */

/* Outputs of just this length, longer, shorter, and of no length. */
static inline void try_export(const struct bytes *file, struct reading reads, const struct bytes *expected)
{
    struct reading short_of = then(reads, alike(VMD_OUTPUT_TOO_SHORT));
    enum manner m;
    for (m = STRICT; m < MANNERS; m++) {
        size_of_export(m, file, reads.in[m], expected->len);
        export_into(m, file, reads.in[m], expected, expected->len);
        export_into(m, file, reads.in[m], expected, expected->len + 100);
        export_into(m, file, short_of.in[m], NULL, expected->len - 1);
        export_into(m, file, short_of.in[m], NULL, 0);
    }
    expect_written(expected->at, expected->len);
}

static inline void try_older(const struct bytes *file, struct reading reads, const struct bytes *expected)
{
    struct reading short_of = then(reads, alike(VMD_OUTPUT_TOO_SHORT));
    enum manner m;
    for (m = STRICT; m < MANNERS; m++) {
        size_of_older(m, file, reads.in[m], expected->len);
        older_into(m, file, reads.in[m], expected, expected->len);
        older_into(m, file, reads.in[m], expected, expected->len + NARROWER);
        older_into(m, file, reads.in[m], expected, expected->len + 100);
        older_into(m, file, short_of.in[m], NULL, expected->len - 1);
        older_into(m, file, short_of.in[m], NULL, 0);
    }
    expect_written(expected->at, expected->len);
}

static inline void try_join(const struct bytes *first, const struct bytes *second, struct reading reads,
                            const struct bytes *expected)
{
    struct reading short_of = then(reads, alike(VMD_OUTPUT_TOO_SHORT));
    enum manner m;
    for (m = STRICT; m < MANNERS; m++) {
        size_of_join(m, first, second, reads.in[m], expected->len);
        join_into(m, first, second, reads.in[m], expected, expected->len);
        join_into(m, first, second, reads.in[m], expected, expected->len + 100);
        join_into(m, first, second, short_of.in[m], NULL, expected->len - 1);
        join_into(m, first, second, short_of.in[m], NULL, 0);
    }
    expect_written(expected->at, expected->len);
}

/* ---- files that neither manner saves */

static inline void try_export_refused(const struct bytes *file, struct reading reads)
{
    enum manner m;
    for (m = STRICT; m < MANNERS; m++) {
        size_of_export(m, file, reads.in[m], 0);
        export_into(m, file, reads.in[m], NULL, 4096);
        export_into(m, file, reads.in[m], NULL, 0);
    }
}

/* 15 is no refusal of reading, and comes after them. The older file would have this many bytes. */
static inline void try_older_refused(const struct bytes *file, struct reading numbers, size_t len)
{
    enum manner m;
    for (m = STRICT; m < MANNERS; m++) {
        size_of_older(m, file, numbers.in[m], 0);
        older_into(m, file, numbers.in[m], NULL, 0);
        older_into(m, file, numbers.in[m], NULL, len - 1);
        older_into(m, file, numbers.in[m], NULL, len);
        older_into(m, file, numbers.in[m], NULL, len + 100);
    }
}

static inline void try_join_refused(const struct bytes *first, const struct bytes *second, struct reading reads)
{
    enum manner m;
    for (m = STRICT; m < MANNERS; m++) {
        size_of_join(m, first, second, reads.in[m], 0);
        join_into(m, first, second, reads.in[m], NULL, 4096);
        join_into(m, first, second, reads.in[m], NULL, 0);
    }
}

#endif
