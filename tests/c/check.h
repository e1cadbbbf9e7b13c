/*
 * Checks, and buffers to lend: each lent buffer ends where a page begins that cannot be touched, so a call that goes past
 * its end stops the program, and the bytes before it are known, so a call that writes there is seen. A file can be lent so
 * that it begins at such a page as well.
 */
#ifndef CHECK_H
#define CHECK_H

#define _DEFAULT_SOURCE /* MAP_ANONYMOUS */

#include <stdarg.h>
#include <stdint.h>
#include <stdio.h>
#include <stdlib.h>
#include <string.h>
#include <sys/mman.h>

enum { UNWRITTEN = 0xA5, FENCE_ROOM = 1 << 23, FENCE_PAGE = 65536 };

/* ---- what is being tried, and what came of it */

static char trying[256];
static const char *tried_in = ""; /* the manner of the last call, where it has one */
static unsigned long checks, failures;

static inline void trial(const char *name, ...)
{
    va_list values;
    va_start(values, name);
    vsnprintf(trying, sizeof trying, name, values);
    va_end(values);
    tried_in = "";
}

static inline void expect(int as_expected, const char *what, ...)
{
    va_list values;
    checks++;
    if (as_expected)
        return;
    failures++;
    if (failures > 20)
        return;
    fprintf(stderr, "%s%s: ", trying, tried_in);
    va_start(values, what);
    vfprintf(stderr, what, values);
    va_end(values);
    fputc('\n', stderr);
}

static inline void expect_number(const char *what, uint64_t got, uint64_t expected)
{
    expect(got == expected, "%s: expected %llu, got %llu", what, (unsigned long long)expected, (unsigned long long)got);
}

static inline void expect_bytes(const char *what, const void *got, const void *expected, size_t n)
{
    const uint8_t *g = got, *e = expected;
    size_t i = 0;
    while (i < n && g[i] == e[i])
        i++;
    expect(i == n, "%s: byte %zu of %zu: expected %u, got %u", what, i, n, i < n ? e[i] : 0u, i < n ? g[i] : 0u);
}

static inline int finished(const char *program)
{
    if (failures > 0) {
        fprintf(stderr, "%s: %lu of %lu checks failed\n", program, failures, checks);
        return 1;
    }
    printf("%s: %lu checks\n", program, checks);
    return 0;
}

/* ---- lent buffers */

struct fence {
    uint8_t *room; /* FENCE_ROOM bytes, with a page before and after them that cannot be touched */
    uint8_t *at;   /* the buffer, at the end of the room or, a file, at its beginning */
    size_t len;
};

static inline uint8_t *end_of(struct fence *f)
{
    if (f->room == NULL) {
        uint8_t *pages = mmap(NULL, FENCE_ROOM + 2 * FENCE_PAGE, PROT_NONE, MAP_PRIVATE | MAP_ANONYMOUS, -1, 0);
        if (pages == MAP_FAILED || mprotect(pages + FENCE_PAGE, FENCE_ROOM, PROT_READ | PROT_WRITE) != 0) {
            perror("mmap");
            exit(2);
        }
        f->room = pages + FENCE_PAGE;
    }
    return f->room + FENCE_ROOM;
}

/* A buffer of this many bytes; a null pointer where there are none, as the interface allows. */
static inline void *make_room(struct fence *f, size_t n)
{
    uint8_t *end = end_of(f);
    if (n > FENCE_ROOM - 64) {
        fprintf(stderr, "%s: %zu bytes do not fit the test's buffer\n", trying, n);
        exit(2);
    }
    f->at = end - n;
    f->len = n;
    memset(f->at - 64, UNWRITTEN, 64);
    return n == 0 ? NULL : f->at;
}

/* A buffer with these bytes. */
static inline void *lend(struct fence *f, const void *bytes, size_t n)
{
    void *at = make_room(f, n);
    if (n > 0)
        memcpy(at, bytes, n);
    return at;
}

/* A buffer with these bytes that begins where the room does: a call that looks before it stops the program. */
static inline void *lend_first(struct fence *f, const void *bytes, size_t n)
{
    make_room(f, n);
    f->at = f->room;
    memset(f->at + n, UNWRITTEN, 64);
    if (n > 0)
        memcpy(f->at, bytes, n);
    return n == 0 ? NULL : f->at;
}

/* A buffer to be written to. */
static inline void *lend_unwritten(struct fence *f, size_t n)
{
    void *at = make_room(f, n);
    memset(f->at, UNWRITTEN, n);
    return at;
}

static inline void expect_unwritten(const char *what, const void *at, size_t n)
{
    const uint8_t *b = at;
    size_t i = 0;
    while (i < n && b[i] == UNWRITTEN)
        i++;
    expect(i == n, "%s: byte %zu of %zu was written", what, i, n);
}

/* The buffer has just these bytes, and nothing before it was written. */
static inline void expect_lent(const char *what, const struct fence *f, const void *expected, size_t n)
{
    expect_number(what, f->len, n);
    if (f->len == n && n > 0)
        expect_bytes(what, f->at, expected, n);
    expect_unwritten(what, f->at - 64, 64);
}

/* The same of a buffer that begins where the room does. */
static inline void expect_lent_first(const char *what, const struct fence *f, const void *expected, size_t n)
{
    if (n > 0)
        expect_bytes(what, f->at, expected, n);
    expect_unwritten(what, f->at + n, 64);
}

/* The buffer was lent to be written to, and nothing of it was. */
static inline void expect_lent_unwritten(const char *what, const struct fence *f)
{
    expect_unwritten(what, f->at - 64, 64 + f->len);
}

#endif
