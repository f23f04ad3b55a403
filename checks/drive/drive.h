/* What the drivers share. A driver links the library, takes calls on standard input, makes them and writes what came back on standard
 * output, so that a checker in any language, on any machine, can try the library. Numbers travel least octet first.
 *
 * Each lent slice stands in an arena of its own between two pages that nobody may touch. Mode 0 puts the slice's end against the page
 * after it, mode 1 its start against the page before it, so that a step too far in either direction ends the driver; the octets on the
 * other side hold a pattern, and the answer's field `kept` says whether they, and each slice lent for reading only, came back as they
 * were. */
#ifndef DRIVE_H
#define DRIVE_H

#ifndef _GNU_SOURCE
#define _GNU_SOURCE /* memfd_create */
#endif
#include <stddef.h>
#include <stdint.h>
#include <stdio.h>
#include <stdlib.h>
#include <string.h>
#include <sys/mman.h>
#include <unistd.h>

enum { ARENA = 1 << 20, MARGIN = 256, PATTERN = 0xC5 };

struct lent {
    uint8_t *arena, *copy, *data;
    size_t len;
};

static void fail(const char *what) {
    fprintf(stderr, "driver: %s\n", what);
    exit(2);
}

/* Ends the driver quietly if the calls end here. */
static void take(void *to, size_t len) {
    if (len != 0 && fread(to, 1, len, stdin) != len) fail("a call was cut");
}

static void give(const void *from, size_t len) {
    if (len != 0 && fwrite(from, 1, len, stdout) != len) fail("the answer could not be written");
}

static inline uint8_t take_8(void) {
    uint8_t x;
    take(&x, 1);
    return x;
}

static inline uint32_t take_32(void) {
    uint8_t x[4];
    take(x, 4);
    return x[0] | x[1] << 8 | x[2] << 16 | (uint32_t)x[3] << 24;
}

static inline uint64_t take_64(void) {
    uint64_t low = take_32();
    return low | (uint64_t)take_32() << 32;
}

static inline void give_32(uint32_t x) {
    uint8_t out[4] = {(uint8_t)x, (uint8_t)(x >> 8), (uint8_t)(x >> 16), (uint8_t)(x >> 24)};
    give(out, 4);
}

static inline void give_64(uint64_t x) {
    give_32((uint32_t)x);
    give_32((uint32_t)(x >> 32));
}

/* The next call's kind, or the end of the program when no call is left. */
static int next_call(void) {
    fflush(stdout);
    int kind = getchar();
    if (kind == EOF) exit(0);
    return kind;
}

static inline struct lent arena(void) {
    size_t page = (size_t)sysconf(_SC_PAGESIZE);
    uint8_t *all = mmap(NULL, ARENA + 2 * page, PROT_NONE, MAP_PRIVATE | MAP_ANONYMOUS, -1, 0);
    if (all == MAP_FAILED || mprotect(all + page, ARENA, PROT_READ | PROT_WRITE) != 0) fail("no memory");
    struct lent l = {all + page, malloc(ARENA), all + page, 0};
    if (l.copy == NULL) fail("no memory");
    return l;
}

/* Takes a length in elements and the elements, `size` octets each, into the arena. */
static inline void take_slice(struct lent *l, int mode, size_t size) {
    l->len = take_32() * size;
    if (l->len + MARGIN > ARENA) fail("a slice is too long");
    l->data = mode == 0 ? l->arena + ARENA - l->len : l->arena;
    uint8_t *margin = mode == 0 ? l->data - MARGIN : l->data + l->len;
    take(l->data, l->len);
    memcpy(l->copy, l->data, l->len);
    memset(margin, PATTERN, MARGIN);
}

static inline int margin_kept(const struct lent *l) {
    const uint8_t *margin = l->data + l->len == l->arena + ARENA ? l->data - MARGIN : l->data + l->len;
    for (size_t i = 0; i < MARGIN; i++)
        if (margin[i] != PATTERN) return 0;
    return 1;
}

static inline int all_kept(const struct lent *l) { return margin_kept(l) && memcmp(l->data, l->copy, l->len) == 0; }

/* A number that a call may write is lent as a slice is, so that it stands between guarded pages too: here with what it holds before. */
static inline void lend_number(struct lent *l, int mode, const void *number, size_t size) {
    l->len = size;
    l->data = mode == 0 ? l->arena + ARENA - size : l->arena;
    memcpy(l->data, number, size);
    memset(mode == 0 ? l->data - MARGIN : l->data + size, PATTERN, MARGIN);
}

static inline void take_number(struct lent *l, int mode) {
    uint64_t number = take_64();
    lend_number(l, mode, &number, sizeof number);
}

static inline uint64_t *number_of(const struct lent *l) { return (uint64_t *)l->data; }

/* A slice of `len` zero octets that needs no memory until it is touched: for lengths beyond 32 bits. */
static inline uint8_t *wide_slice(uint64_t len, int prot) {
    uint8_t *data = mmap(NULL, len, prot, MAP_PRIVATE | MAP_ANONYMOUS | MAP_NORESERVE, -1, 0);
    if (data == MAP_FAILED) fail("no room for a wide slice");
    return data;
}

#endif
