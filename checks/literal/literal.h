/* The literal C version: each rule of documents 01 and 02 done as its sentence says, bit by bit. It is what the benchmark compares the proved
 * library with: plain, neither clever nor slowed down. */
#ifndef LITERAL_H
#define LITERAL_H

#include <stddef.h>
#include <stdint.h>

enum {
    FRAME_INDICES = 7,
    FRAME_BITS = 44,
    CRC_BITS = 4,
    PACKET_BITS = 2 * FRAME_BITS + CRC_BITS,
    PAIRS = 12,
    FRAMES = 2 * PAIRS,
    SYNC_OCTETS = 2,
    HEADER_OCTETS = 4,
    STREAM_OCTETS = PAIRS * PACKET_BITS / 8,
    MULTIFRAME_OCTETS = SYNC_OCTETS + HEADER_OCTETS + STREAM_OCTETS,
    SYNC_BITS = 8 * SYNC_OCTETS,
    HEADER_BITS = 8 * HEADER_OCTETS,
    MULTIFRAME_BITS = 8 * MULTIFRAME_OCTETS,
    LEAST_MATCH = 12,
    MOST_MULTIFRAMES = 255,
    MOST_FRAMES = FRAMES * MOST_MULTIFRAMES - 1,
    INDEX_OCTETS = FRAMES * FRAME_INDICES,
    REPORT_OCTETS = 1 + PAIRS,
    CODEBOOK_NUMBERS = 1280,
    THRESHOLD_NUMBERS = 14
};

/* Bits of octets, numbered in sending order. */
static inline unsigned get_bit(const uint8_t *octets, size_t t) { return octets[t / 8] >> (t % 8) & 1; }
static inline void put_bit(uint8_t *octets, size_t t, unsigned bit) {
    octets[t / 8] = (uint8_t)((octets[t / 8] & ~(1u << (t % 8))) | bit << (t % 8));
}

uint32_t literal_header_encode(uint16_t message);
int literal_header_read(uint32_t word, uint16_t *message, uint32_t *flips);

int literal_index_fits(const uint8_t *frame);
int literal_zero_frame(const uint8_t *frame);
void literal_pack(const uint8_t *indices, uint8_t *stream);
void literal_unpack(const uint8_t *stream, uint8_t *indices, uint8_t *notes);

uint32_t literal_write(uint64_t rate, uint64_t type, const uint8_t *indices, size_t indices_len, uint8_t *out, size_t out_len,
                        uint64_t *place);

/* The first negative threshold's number, from 0; 14 if none is negative (02, C-12). */
size_t literal_first_negative(const int32_t *thresholds);

/* `one_header_settles` asks for the rule that was 01's: an only multiframe whose header is a codeword settles (02, C-20). */
uint32_t literal_read(const uint8_t *octets, size_t octets_len, int one_header_settles, const int32_t *codebook, size_t codebook_len,
                       const int32_t *thresholds, size_t thresholds_len, uint8_t *index, size_t index_len, uint8_t *report,
                       size_t report_len, uint64_t *answer, uint64_t *place);

/* The first three numbers of a reading's answer: rate, type, and here the multiframes read. */
uint32_t literal_settle(const uint8_t *octets, size_t octets_len, int one_header_settles, uint64_t *answer, uint64_t *place);

uint32_t literal_hunt(const uint8_t *octets, size_t octets_len, uint64_t from, uint64_t least, uint64_t *found, uint64_t *tested,
                       uint64_t *place);

uint32_t literal_read_bits(const uint8_t *octets, size_t octets_len, uint64_t from, uint64_t least, int one_header_settles,
                            const int32_t *codebook, size_t codebook_len, const int32_t *thresholds, size_t thresholds_len,
                            uint8_t *index, size_t index_len, uint8_t *report, size_t report_len, uint64_t *answer, uint64_t *place);

#endif
