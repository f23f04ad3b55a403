/* Octets whose number is beyond 32 bits, for drivers: they include this before anything else, for memfd_create. */
#ifndef WIDE_H
#define WIDE_H

#include "drive.h"

/* `before` octets of inverse syncs, then the given ones. The inverse syncs are one short file that is mapped again and again. */
static inline uint8_t *behind_inverse_syncs(uint64_t before, const struct lent *octets) {
    enum { UNIT = 1 << 21 };
    uint8_t *all = wide_slice(before + octets->len + 1, PROT_READ | PROT_WRITE);
    int file = memfd_create("inverse syncs", 0);
    if (file < 0 || ftruncate(file, UNIT) != 0) fail("no file in memory");
    uint8_t *unit = mmap(NULL, UNIT, PROT_READ | PROT_WRITE, MAP_SHARED, file, 0);
    if (unit == MAP_FAILED) fail("no memory");
    for (size_t i = 0; i < UNIT; i++) unit[i] = i % 2 == 0 ? 0x78 : 0x4D;
    uint64_t at = 0;
    for (; at + UNIT <= before; at += UNIT)
        if (mmap(all + at, UNIT, PROT_READ, MAP_SHARED | MAP_FIXED | MAP_POPULATE, file, 0) == MAP_FAILED) fail("no room for inverse syncs");
    memcpy(all + at, unit, before - at);
    memcpy(all + before, octets->data, octets->len);
    munmap(unit, UNIT);
    close(file);
    return all;
}

#endif
