/* Stands between the inline functions and the proved ones, by the linker's --wrap, and ends the test if a null pointer is lent. */
#include <stdio.h>
#include <stdlib.h>

#include "../../c/dsr.h"

#ifdef __cplusplus
extern "C" {
#endif

uint32_t __real_dsr_write(uint64_t, uint64_t, const uint8_t *, size_t, uint8_t *, size_t, uint64_t *);
uint32_t __wrap_dsr_write(uint64_t, uint64_t, const uint8_t *, size_t, uint8_t *, size_t, uint64_t *);
uint32_t __real_dsr_read(const uint8_t *, size_t, uint64_t, const int32_t *, size_t, const int32_t *, size_t, uint8_t *, size_t, uint8_t *,
                         size_t, uint64_t *, size_t, uint64_t *);
uint32_t __wrap_dsr_read(const uint8_t *, size_t, uint64_t, const int32_t *, size_t, const int32_t *, size_t, uint8_t *, size_t, uint8_t *,
                         size_t, uint64_t *, size_t, uint64_t *);
uint32_t __real_dsr_settle(const uint8_t *, size_t, uint64_t, uint64_t *, size_t, uint64_t *);
uint32_t __wrap_dsr_settle(const uint8_t *, size_t, uint64_t, uint64_t *, size_t, uint64_t *);
uint32_t __real_dsr_hunt(const uint8_t *, size_t, uint64_t, uint64_t, uint64_t *, uint64_t *, uint64_t *);
uint32_t __wrap_dsr_hunt(const uint8_t *, size_t, uint64_t, uint64_t, uint64_t *, uint64_t *, uint64_t *);
uint32_t __real_dsr_read_bits(const uint8_t *, size_t, uint64_t, uint64_t, uint64_t, const int32_t *, size_t, const int32_t *, size_t,
                              uint8_t *, size_t, uint8_t *, size_t, uint64_t *, size_t, uint64_t *);
uint32_t __wrap_dsr_read_bits(const uint8_t *, size_t, uint64_t, uint64_t, uint64_t, const int32_t *, size_t, const int32_t *, size_t,
                              uint8_t *, size_t, uint8_t *, size_t, uint64_t *, size_t, uint64_t *);

static void expect_lent(int all) {
    if (all) return;
    printf("a null pointer is lent to a proved function\n");
    exit(1);
}

uint32_t __wrap_dsr_write(uint64_t rate, uint64_t type, const uint8_t *indices, size_t indices_len, uint8_t *out, size_t out_len,
                          uint64_t *place) {
    expect_lent(indices && out && place);
    return __real_dsr_write(rate, type, indices, indices_len, out, out_len, place);
}

uint32_t __wrap_dsr_read(const uint8_t *octets, size_t octets_len, uint64_t choices, const int32_t *codebook, size_t codebook_len,
                         const int32_t *thresholds, size_t thresholds_len, uint8_t *index, size_t index_len, uint8_t *report,
                         size_t report_len, uint64_t *answer, size_t answer_len, uint64_t *place) {
    expect_lent(octets && codebook && thresholds && index && report && answer && place);
    return __real_dsr_read(octets, octets_len, choices, codebook, codebook_len, thresholds, thresholds_len, index, index_len, report,
                           report_len, answer, answer_len, place);
}

uint32_t __wrap_dsr_settle(const uint8_t *octets, size_t octets_len, uint64_t choices, uint64_t *answer, size_t answer_len,
                           uint64_t *place) {
    expect_lent(octets && answer && place);
    return __real_dsr_settle(octets, octets_len, choices, answer, answer_len, place);
}

uint32_t __wrap_dsr_hunt(const uint8_t *octets, size_t octets_len, uint64_t from, uint64_t least, uint64_t *found, uint64_t *tested,
                         uint64_t *place) {
    expect_lent(octets && found && tested && place);
    return __real_dsr_hunt(octets, octets_len, from, least, found, tested, place);
}

uint32_t __wrap_dsr_read_bits(const uint8_t *octets, size_t octets_len, uint64_t from, uint64_t least, uint64_t choices,
                              const int32_t *codebook, size_t codebook_len, const int32_t *thresholds, size_t thresholds_len,
                              uint8_t *index, size_t index_len, uint8_t *report, size_t report_len, uint64_t *answer, size_t answer_len,
                              uint64_t *place) {
    expect_lent(octets && codebook && thresholds && index && report && answer && place);
    return __real_dsr_read_bits(octets, octets_len, from, least, choices, codebook, codebook_len, thresholds, thresholds_len, index,
                                index_len, report, report_len, answer, answer_len, place);
}

#ifdef __cplusplus
}
#endif
