/* The reader (01, "Reading"; 02, C-12 and C-20). */
#include <string.h>

#include "literal.h"

enum { LOST = 3, MOST_PAIRS = PAIRS * MOST_MULTIFRAMES, COMMON = 0xFF87 };

struct header {
    int readable;
    uint16_t message;
    uint32_t flips;
};

struct utterance {
    size_t m;
    size_t start[MOST_MULTIFRAMES];
    struct header headers[MOST_MULTIFRAMES];
    uint8_t indices[INDEX_OCTETS * MOST_MULTIFRAMES];
    uint8_t notes[MOST_PAIRS];
};

/* Cutting up: 0, or the refusal 12, 13 or 15 with its place. */
static uint32_t cut(const uint8_t *octets, size_t len, struct utterance *u, uint64_t *place) {
    size_t p = 0;
    u->m = 0;
    while (p < len) {
        size_t left = len - p;
        *place = p;
        if (left == 1) return octets[p] == 0x87 || octets[p] == 0x78 ? 13 : 12;
        if (octets[p] == 0x87 && octets[p + 1] == 0xB2) {
            if (u->m == MOST_MULTIFRAMES) return 15;
            if (left < MULTIFRAME_OCTETS) return 13;
            u->start[u->m++] = p;
            p += MULTIFRAME_OCTETS;
        } else if (octets[p] == 0x78 && octets[p + 1] == 0x4D) {
            p += 2;
        } else {
            return 12;
        }
    }
    return 0;
}

static void read_headers(const uint8_t *octets, struct utterance *u) {
    for (size_t k = 0; k < u->m; k++) {
        const uint8_t *h = octets + u->start[k] + SYNC_OCTETS;
        uint32_t word = 0;
        for (unsigned i = 0; i < HEADER_OCTETS; i++) word |= (uint32_t)h[i] << (8 * i);
        struct header *header = &u->headers[k];
        header->readable = literal_header_read(word, &header->message, &header->flips);
    }
}

/* The first readable header that agrees in its common bits with an earlier readable one; else, if the caller asked for it, an only
 * codeword. */
static int settle(const struct utterance *u, int one_header_settles, uint16_t *common) {
    for (size_t k = 1; k < u->m; k++) {
        if (!u->headers[k].readable) continue;
        for (size_t j = 0; j < k; j++)
            if (u->headers[j].readable && (u->headers[j].message & COMMON) == (u->headers[k].message & COMMON)) {
                *common = u->headers[k].message & COMMON;
                return 1;
            }
    }
    if (one_header_settles && u->m == 1 && u->headers[0].readable && u->headers[0].flips == 0) {
        *common = u->headers[0].message & COMMON;
        return 1;
    }
    return 0;
}

size_t literal_first_negative(const int32_t *thresholds) {
    size_t i = 0;
    while (i < THRESHOLD_NUMBERS && thresholds[i] >= 0) i++;
    return i;
}

/* Whether the absolute difference exceeds the threshold (02, C-12). The exact difference is meant; it may need 33 bits. */
static int exceeds(int32_t first, int32_t second, int32_t threshold) {
    int64_t difference = (int64_t)second - first;
    int64_t absolute = difference < 0 ? -difference : difference;
    return absolute > threshold;
}

/* A pair is inconsistent if at least two of its seven index pairs are flagged. */
static int inconsistent(const uint8_t *pair, const int32_t *codebook, const int32_t *thresholds) {
    unsigned flagged = 0;
    for (unsigned c = 0; c < FRAME_INDICES; c++) {
        const int32_t *first = codebook + 128 * c + 2 * pair[c];
        const int32_t *second = codebook + 128 * c + 2 * pair[FRAME_INDICES + c];
        if (exceeds(first[0], second[0], thresholds[2 * c]) || exceeds(first[1], second[1], thresholds[2 * c + 1])) flagged++;
    }
    return flagged >= 2;
}

static size_t judge(struct utterance *u, const int32_t *codebook, const int32_t *thresholds) {
    size_t pairs = PAIRS * u->m, bad = 0;
    for (size_t p = 0; p < pairs; p++) {
        int before = p > 0 && u->notes[p - 1] != 0;
        int after = p + 1 < pairs && u->notes[p + 1] == 1;
        if (u->notes[p] == 0 && (before || after) && inconsistent(u->indices + 2 * FRAME_INDICES * p, codebook, thresholds))
            u->notes[p] = 2;
        if (u->notes[p] != 0) bad++;
    }
    return bad;
}

static void copy_frame(struct utterance *u, size_t to, size_t from) {
    memcpy(u->indices + FRAME_INDICES * to, u->indices + FRAME_INDICES * from, FRAME_INDICES);
}

/* Each run of bad pairs takes its first half from the good frame before it and its second half from the one after it. */
static void replace(struct utterance *u) {
    size_t pairs = PAIRS * u->m, p = 0;
    while (p < pairs) {
        if (u->notes[p] == 0) {
            p++;
            continue;
        }
        size_t end = p;
        while (end < pairs && u->notes[end] != 0) end++;
        size_t run = end - p;
        for (size_t f = 0; f < 2 * run; f++) {
            size_t to = 2 * p + f;
            int from_before = end == pairs || (p > 0 && f < run);
            copy_frame(u, to, from_before ? 2 * p - 1 : 2 * end);
        }
        p = end;
    }
}

static uint8_t header_note(const struct header *header, size_t position, uint16_t common) {
    if (!header->readable) return LOST;
    uint8_t note = (uint8_t)header->flips;
    if ((header->message >> 3 & 15u) != position % 16) note += 4;
    if ((header->message & COMMON) != common) note += 8;
    return note;
}

static uint32_t refuse(uint64_t *place, uint32_t number, uint64_t where) {
    *place = where;
    return number;
}

uint32_t literal_read(const uint8_t *octets, size_t octets_len, int one_header_settles, const int32_t *codebook, size_t codebook_len,
                       const int32_t *thresholds, size_t thresholds_len, uint8_t *index, size_t index_len, uint8_t *report,
                       size_t report_len, uint64_t *answer, uint64_t *place) {
    struct utterance u;
    uint16_t common = 0;
    uint64_t cut_at = 0;
    if (codebook_len != CODEBOOK_NUMBERS || thresholds_len != THRESHOLD_NUMBERS) return refuse(place, 11, 0);
    size_t negative = literal_first_negative(thresholds);
    if (negative < THRESHOLD_NUMBERS) return refuse(place, 10, negative);
    uint32_t number = cut(octets, octets_len, &u, &cut_at);
    if (number != 0) return refuse(place, number, cut_at);
    if (u.m == 0) return refuse(place, 14, octets_len);
    read_headers(octets, &u);
    if (!settle(&u, one_header_settles, &common)) return refuse(place, 16, 0);
    if ((common & 3) == 2 || common >> 7 != 0) return refuse(place, 17, 0);
    if (index_len < INDEX_OCTETS * u.m) return refuse(place, 18, INDEX_OCTETS * u.m);
    if (report_len < REPORT_OCTETS * u.m) return refuse(place, 19, REPORT_OCTETS * u.m);
    for (size_t k = 0; k < u.m; k++)
        literal_unpack(octets + u.start[k] + SYNC_OCTETS + HEADER_OCTETS, u.indices + INDEX_OCTETS * k, u.notes + PAIRS * k);
    size_t bad = judge(&u, codebook, thresholds);
    if (bad == PAIRS * u.m) return refuse(place, 20, 0);
    replace(&u);

    memcpy(index, u.indices, INDEX_OCTETS * u.m);
    for (size_t k = 0; k < u.m; k++) {
        report[REPORT_OCTETS * k] = header_note(&u.headers[k], k + 1, common);
        memcpy(report + REPORT_OCTETS * k + 1, u.notes + PAIRS * k, PAIRS);
    }
    size_t last = 0;
    for (size_t f = 1; f <= FRAMES; f++)
        if (!literal_zero_frame(u.indices + INDEX_OCTETS * (u.m - 1) + FRAME_INDICES * (f - 1))) last = f;
    answer[0] = common & 3;
    answer[1] = common >> 2 & 1;
    answer[2] = u.m;
    answer[3] = FRAMES * (u.m - 1) + last;
    answer[4] = bad;
    answer[5] = last != FRAMES;
    return 0;
}
