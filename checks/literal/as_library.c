/* The literal C version under the library's names, so that the checks can be tried with no library, and try the literal version too. */
#include "../../c/dsr.h"
#include "literal.h"

uint32_t dsr_header_encode(uint16_t message) { return literal_header_encode(message); }

uint32_t dsr_header_read(uint32_t word, uint16_t *message, uint32_t *flips) {
    return literal_header_read(word, message, flips) ? DSR_DONE : DSR_HEADER_UNREADABLE;
}

uint32_t dsr_pack(const uint8_t *indices, size_t indices_len, uint8_t *stream, size_t stream_len) {
    if (indices_len != INDEX_OCTETS || stream_len != STREAM_OCTETS) return DSR_WRONG_LENGTH;
    for (size_t f = 0; f < FRAMES; f++)
        if (!literal_index_fits(indices + FRAME_INDICES * f)) return DSR_WRITE_INDEX_VALUE;
    literal_pack(indices, stream);
    return DSR_DONE;
}

uint32_t dsr_unpack(const uint8_t *stream, size_t stream_len, uint8_t *indices, size_t indices_len, uint8_t *notes,
                    size_t notes_len) {
    if (stream_len != STREAM_OCTETS || indices_len != INDEX_OCTETS || notes_len != PAIRS) return DSR_WRONG_LENGTH;
    literal_unpack(stream, indices, notes);
    return DSR_DONE;
}

uint32_t dsr_write(uint64_t rate, uint64_t type, const uint8_t *indices, size_t indices_len, uint8_t *out, size_t out_len,
                   uint64_t *place) {
    return literal_write(rate, type, indices, indices_len, out, out_len, place);
}

static int known(uint64_t choices) { return choices == DSR_DEFAULT_CHOICES || choices == DSR_ONE_HEADER_SETTLES; }

uint32_t dsr_read(const uint8_t *octets, size_t octets_len, uint64_t choices, const int32_t *codebook, size_t codebook_len,
                  const int32_t *thresholds, size_t thresholds_len, uint8_t *index, size_t index_len, uint8_t *report, size_t report_len,
                  uint64_t *answer, size_t answer_len, uint64_t *place) {
    if (answer_len < DSR_ANSWER_NUMBERS) return DSR_READ_ANSWER_SHORT;
    if (!known(choices)) return DSR_NO_SUCH_CHOICE;
    return literal_read(octets, octets_len, choices == DSR_ONE_HEADER_SETTLES, codebook, codebook_len, thresholds, thresholds_len, index,
                        index_len, report, report_len, answer, place);
}

uint32_t dsr_settle(const uint8_t *octets, size_t octets_len, uint64_t choices, uint64_t *answer, size_t answer_len, uint64_t *place) {
    if (answer_len < DSR_SETTLE_ANSWER_NUMBERS) return DSR_READ_ANSWER_SHORT;
    if (!known(choices)) return DSR_NO_SUCH_CHOICE;
    return literal_settle(octets, octets_len, choices == DSR_ONE_HEADER_SETTLES, answer, place);
}

uint32_t dsr_hunt(const uint8_t *octets, size_t octets_len, uint64_t from, uint64_t least, uint64_t *found, uint64_t *tested,
                  uint64_t *place) {
    return literal_hunt(octets, octets_len, from, least, found, tested, place);
}

uint32_t dsr_read_bits(const uint8_t *octets, size_t octets_len, uint64_t from, uint64_t least, uint64_t choices,
                       const int32_t *codebook, size_t codebook_len, const int32_t *thresholds, size_t thresholds_len, uint8_t *index,
                       size_t index_len, uint8_t *report, size_t report_len, uint64_t *answer, size_t answer_len, uint64_t *place) {
    if (answer_len < DSR_BITS_ANSWER_NUMBERS) return DSR_READ_ANSWER_SHORT;
    if (!known(choices)) return DSR_NO_SUCH_CHOICE;
    return literal_read_bits(octets, octets_len, from, least, choices == DSR_ONE_HEADER_SETTLES, codebook, codebook_len, thresholds,
                             thresholds_len, index, index_len, report, report_len, answer, place);
}
