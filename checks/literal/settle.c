/* Settings without the whole utterance (02, C-11 and C-20). */
#include "literal.h"

enum { COMMON = 0xFF87 };

struct header {
    int readable;
    uint16_t message;
    uint32_t flips;
};

/* The multiframes read so far. */
struct met {
    size_t m;
    struct header headers[MOST_MULTIFRAMES];
};

static uint32_t refuse(uint64_t *place, uint32_t number, uint64_t where) {
    *place = where;
    return number;
}

/* Cutting up, one piece: 0 and how many octets the piece at p has, or the refusal 12, 13 or 15. */
static uint32_t cut_piece(const uint8_t *octets, size_t len, size_t p, size_t m, size_t *piece) {
    size_t left = len - p;
    if (left == 1) return octets[p] == 0x87 || octets[p] == 0x78 ? 13 : 12;
    if (octets[p] == 0x87 && octets[p + 1] == 0xB2) {
        if (m == MOST_MULTIFRAMES) return 15;
        if (left < MULTIFRAME_OCTETS) return 13;
        *piece = MULTIFRAME_OCTETS;
        return 0;
    }
    if (octets[p] == 0x78 && octets[p + 1] == 0x4D) {
        *piece = SYNC_OCTETS;
        return 0;
    }
    return 12;
}

static void read_header(const uint8_t *multiframe, struct met *met) {
    struct header *header = &met->headers[met->m++];
    uint32_t word = 0;
    for (unsigned i = 0; i < HEADER_OCTETS; i++) word |= (uint32_t)multiframe[SYNC_OCTETS + i] << (8 * i);
    header->readable = literal_header_read(word, &header->message, &header->flips);
}

/* Whether the last header is readable and agrees in its common bits with an earlier readable one. */
static int agrees(const struct met *met) {
    const struct header *last = &met->headers[met->m - 1];
    if (!last->readable) return 0;
    for (size_t j = 0; j + 1 < met->m; j++)
        if (met->headers[j].readable && (met->headers[j].message & COMMON) == (last->message & COMMON)) return 1;
    return 0;
}

/* The last header's common bits are settled. */
static uint32_t settled(const struct met *met, uint64_t *answer, uint64_t *place) {
    uint16_t common = met->headers[met->m - 1].message & COMMON;
    if ((common & 3) == 2 || common >> 7 != 0) return refuse(place, 17, 0);
    answer[0] = common & 3;
    answer[1] = common >> 2 & 1;
    answer[2] = met->m;
    return 0;
}

uint32_t literal_settle(const uint8_t *octets, size_t octets_len, int one_header_settles, uint64_t *answer, uint64_t *place) {
    struct met met;
    size_t p = 0, piece = 0;
    met.m = 0;
    while (p < octets_len) {
        uint32_t number = cut_piece(octets, octets_len, p, met.m, &piece);
        if (number != 0) return refuse(place, number, p);
        if (piece == MULTIFRAME_OCTETS) {
            read_header(octets + p, &met);
            if (agrees(&met)) return settled(&met, answer, place);
        }
        p += piece;
    }
    if (met.m == 0) return refuse(place, 14, octets_len);
    int only_codeword = met.m == 1 && met.headers[0].readable && met.headers[0].flips == 0;
    if (one_header_settles && only_codeword) return settled(&met, answer, place);
    return refuse(place, 16, 0);
}
