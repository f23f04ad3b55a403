/* Frames, pair packets with their CRC, and the feature stream (01, "Bits and octets"). */
#include "literal.h"

static unsigned width(unsigned index) { return index < 6 ? 6 : 8; }

int literal_index_fits(const uint8_t *frame) {
    for (unsigned i = 0; i < 6; i++)
        if (frame[i] > 63) return 0;
    return 1;
}

int literal_zero_frame(const uint8_t *frame) {
    for (unsigned i = 0; i < FRAME_INDICES; i++)
        if (frame[i] != 0) return 0;
    return 1;
}

/* A field's first bit is its least significant. */
static size_t put_frame(uint8_t *stream, size_t t, const uint8_t *frame) {
    for (unsigned i = 0; i < FRAME_INDICES; i++)
        for (unsigned b = 0; b < width(i); b++) put_bit(stream, t++, frame[i] >> b & 1);
    return t;
}

static size_t get_frame(const uint8_t *stream, size_t t, uint8_t *frame) {
    for (unsigned i = 0; i < FRAME_INDICES; i++) {
        frame[i] = 0;
        for (unsigned b = 0; b < width(i); b++) frame[i] |= (uint8_t)(get_bit(stream, t++) << b);
    }
    return t;
}

/* The register of four bits, X^3 highest, stepped one bit at a time: times X, plus the bit times X^4, modulo 1 + X + X^4. */
static unsigned crc_of(const uint8_t *stream, size_t t) {
    unsigned reg = 0;
    for (size_t i = 0; i < 2 * FRAME_BITS; i++) {
        unsigned out = (reg >> 3 ^ get_bit(stream, t + i)) & 1;
        reg = reg << 1 & 15;
        if (out) reg ^= 3;
    }
    return reg;
}

void literal_pack(const uint8_t *indices, uint8_t *stream) {
    for (size_t p = 0; p < PAIRS; p++) {
        size_t start = PACKET_BITS * p;
        size_t t = put_frame(stream, start, indices + 2 * FRAME_INDICES * p);
        t = put_frame(stream, t, indices + 2 * FRAME_INDICES * p + FRAME_INDICES);
        unsigned crc = crc_of(stream, start);
        for (unsigned b = 0; b < CRC_BITS; b++) put_bit(stream, t + b, crc >> (3 - b) & 1);
    }
}

void literal_unpack(const uint8_t *stream, uint8_t *indices, uint8_t *notes) {
    for (size_t p = 0; p < PAIRS; p++) {
        size_t start = PACKET_BITS * p;
        size_t t = get_frame(stream, start, indices + 2 * FRAME_INDICES * p);
        t = get_frame(stream, t, indices + 2 * FRAME_INDICES * p + FRAME_INDICES);
        unsigned crc = 0;
        for (unsigned b = 0; b < CRC_BITS; b++) crc |= get_bit(stream, t + b) << (3 - b);
        notes[p] = crc != crc_of(stream, start);
    }
}
