/* The hunt, and the reading that hunts (02, C-12 and C-13). */
#include <string.h>

#include "literal.h"

enum { MATCH = 21, NOWHERE = 22, READ_NUMBERS = 6 };

static const uint8_t sync[SYNC_OCTETS] = {0x87, 0xB2};

/* The number of bits that have a number of 64 bits and whose count has one too: octets from the 2^61st on are left out. */
static uint64_t bits_of(size_t octets_len) {
    const uint64_t most = ((uint64_t)1 << 61) - 1;
    return 8 * (octets_len < most ? octets_len : most);
}

/* How many places from `from` on have a multiframe's bits left. */
static uint64_t places_from(uint64_t from, uint64_t bits) {
    if (from > bits || bits - from < MULTIFRAME_BITS) return 0;
    return bits - from - MULTIFRAME_BITS + 1;
}

static uint64_t matching(const uint8_t *octets, uint64_t t) {
    uint64_t matches = 0;
    for (unsigned i = 0; i < SYNC_BITS; i++)
        if (get_bit(octets, t + i) == get_bit(sync, i)) matches++;
    return matches;
}

static int readable_header(const uint8_t *octets, uint64_t t) {
    uint16_t message;
    uint32_t word = 0, flips;
    for (unsigned i = 0; i < HEADER_BITS; i++) word |= (uint32_t)get_bit(octets, t + i) << i;
    return literal_header_read(word, &message, &flips);
}

uint32_t literal_hunt(const uint8_t *octets, size_t octets_len, uint64_t from, uint64_t least, uint64_t *found, uint64_t *tested,
                       uint64_t *place) {
    if (least < LEAST_MATCH || least > SYNC_BITS) {
        *place = least;
        *tested = 0;
        return MATCH;
    }
    uint64_t places = places_from(from, bits_of(octets_len));
    for (uint64_t t = from; t < from + places; t++)
        if (matching(octets, t) >= least && readable_header(octets, t + SYNC_BITS)) {
            *found = t;
            *tested = t - from + 1;
            return 0;
        }
    *place = from;
    *tested = places;
    return NOWHERE;
}

/* The multiframe at bit t as octets, with a whole sync. */
static void copy_multiframe(const uint8_t *octets, uint64_t t, uint8_t *to) {
    memset(to, 0, MULTIFRAME_OCTETS);
    for (unsigned i = 0; i < SYNC_BITS; i++) put_bit(to, i, get_bit(sync, i));
    for (unsigned i = SYNC_BITS; i < MULTIFRAME_BITS; i++) put_bit(to, i, get_bit(octets, t + i));
}

/* What the hunts find, one after the other. */
struct gathered {
    size_t m;
    uint64_t tested;
    uint8_t image[MULTIFRAME_OCTETS * MOST_MULTIFRAMES];
};

/* Hunts from multiframe to multiframe: 0, or the refusal 21, 22 or 15 with its place. */
static uint32_t hunt_all(const uint8_t *octets, size_t octets_len, uint64_t from, uint64_t least, struct gathered *g, uint64_t *place) {
    uint64_t at = from, found = 0, tested = 0, where = 0;
    uint32_t number;
    g->m = 0;
    g->tested = 0;
    while ((number = literal_hunt(octets, octets_len, at, least, &found, &tested, &where)) == 0) {
        if (g->m == MOST_MULTIFRAMES) {
            *place = found;
            return 15;
        }
        copy_multiframe(octets, found, g->image + MULTIFRAME_OCTETS * g->m);
        g->m++;
        g->tested += tested;
        at = found + MULTIFRAME_BITS;
    }
    g->tested += tested;
    if (number == NOWHERE && g->m > 0) return 0;
    *place = where;
    return number;
}

uint32_t literal_read_bits(const uint8_t *octets, size_t octets_len, uint64_t from, uint64_t least, int one_header_settles,
                            const int32_t *codebook, size_t codebook_len, const int32_t *thresholds, size_t thresholds_len,
                            uint8_t *index, size_t index_len, uint8_t *report, size_t report_len, uint64_t *answer, uint64_t *place) {
    struct gathered g;
    if (codebook_len != CODEBOOK_NUMBERS || thresholds_len != THRESHOLD_NUMBERS) {
        *place = 0;
        return 11;
    }
    size_t negative = literal_first_negative(thresholds);
    if (negative < THRESHOLD_NUMBERS) {
        *place = negative;
        return 10;
    }
    uint32_t number = hunt_all(octets, octets_len, from, least, &g, place);
    if (number != 0) return number;
    number = literal_read(g.image, MULTIFRAME_OCTETS * g.m, one_header_settles, codebook, codebook_len, thresholds, thresholds_len,
                          index, index_len, report, report_len, answer, place);
    if (number != 0) return number;
    answer[READ_NUMBERS] = bits_of(octets_len) - from - MULTIFRAME_BITS * g.m;
    answer[READ_NUMBERS + 1] = g.tested;
    return 0;
}
