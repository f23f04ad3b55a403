/* The inline functions of dsr.h over proved functions that are played here: what arrives there is what was lent, however wide, and what
 * they answer is what the struct says. No memory is touched, so lengths and places need not be real. */
#include <stdio.h>
#include <stdlib.h>
#include <string.h>

#include "../../c/dsr.h"

#ifdef __cplusplus
extern "C" {
#endif

static struct {
    const void *lent[7];
    uint64_t number[11];
} got, want;
static uint64_t play[8], play_place, play_found, play_tested;
static uint32_t play_status;

uint32_t dsr_write(uint64_t rate, uint64_t type, const uint8_t *indices, size_t indices_len, uint8_t *out, size_t out_len, uint64_t *place) {
    memset(&got, 0, sizeof got);
    got.lent[0] = indices, got.lent[1] = out;
    got.number[0] = rate, got.number[1] = type, got.number[2] = indices_len, got.number[3] = out_len;
    *place = play_place;
    return play_status;
}

static uint32_t played(const uint8_t *octets, size_t octets_len, uint64_t from, uint64_t least, uint64_t choices, const int32_t *codebook,
                       size_t codebook_len, const int32_t *thresholds, size_t thresholds_len, uint8_t *index, size_t index_len,
                       uint8_t *report, size_t report_len, uint64_t *answer, size_t answer_len, uint64_t *place) {
    memset(&got, 0, sizeof got);
    got.lent[0] = octets, got.lent[1] = codebook, got.lent[2] = thresholds, got.lent[3] = index, got.lent[4] = report;
    got.number[0] = octets_len, got.number[1] = from, got.number[2] = least, got.number[3] = codebook_len;
    got.number[4] = thresholds_len, got.number[5] = index_len, got.number[6] = report_len, got.number[7] = answer_len;
    got.number[8] = choices;
    if (play_status == DSR_DONE) memcpy(answer, play, answer_len * sizeof *answer);
    if (play_status != DSR_DONE) *place = play_place;
    return play_status;
}

uint32_t dsr_read(const uint8_t *o, size_t ol, uint64_t choices, const int32_t *c, size_t cl, const int32_t *t, size_t tl, uint8_t *i,
                  size_t il, uint8_t *r, size_t rl, uint64_t *a, size_t al, uint64_t *p) {
    return played(o, ol, 0, 0, choices, c, cl, t, tl, i, il, r, rl, a, al, p);
}

uint32_t dsr_read_bits(const uint8_t *o, size_t ol, uint64_t from, uint64_t least, uint64_t choices, const int32_t *c, size_t cl,
                       const int32_t *t, size_t tl, uint8_t *i, size_t il, uint8_t *r, size_t rl, uint64_t *a, size_t al, uint64_t *p) {
    return played(o, ol, from, least, choices, c, cl, t, tl, i, il, r, rl, a, al, p);
}

uint32_t dsr_settle(const uint8_t *octets, size_t octets_len, uint64_t choices, uint64_t *answer, size_t answer_len, uint64_t *place) {
    memset(&got, 0, sizeof got);
    got.lent[0] = octets;
    got.number[0] = octets_len, got.number[1] = choices, got.number[2] = answer_len;
    if (play_status == DSR_DONE) memcpy(answer, play, answer_len * sizeof *answer);
    if (play_status != DSR_DONE) *place = play_place;
    return play_status;
}

uint32_t dsr_hunt(const uint8_t *octets, size_t octets_len, uint64_t from, uint64_t least, uint64_t *found, uint64_t *tested, uint64_t *place) {
    memset(&got, 0, sizeof got);
    got.lent[0] = octets;
    got.number[0] = octets_len, got.number[1] = from, got.number[2] = least;
    *tested = play_tested;
    if (play_status == DSR_DONE) *found = play_found;
    if (play_status != DSR_DONE) *place = play_place;
    return play_status;
}

#ifdef __cplusplus
}
#endif

static unsigned met;
static void expect_at(int line, int holds, const char *what) {
    if (!holds) {
        printf("line %d: not so: %s\n", line, what);
        exit(1);
    }
    met++;
}
#define EXPECT(what) expect_at(__LINE__, (what), #what)

static uint8_t a[1], b[1], c[1];
static struct dsr_tables tables;
/* Octets that differ, so that no cut and no swap stays hidden. */
static const uint64_t WIDE = 0xF1E2D3C4B5A69788u;
static uint64_t wide(unsigned k) { return WIDE + 0x0101010101010101u * k; }
static size_t length(unsigned k) { return (size_t)(wide(k) >> 2); }

static void write_passes(uint32_t status) {
    struct dsr_writing w;
    memset(&w, 0xA5, sizeof w);
    play_status = status, play_place = wide(9) >> 1;
    EXPECT(dsr_write_utterance(wide(1), wide(2), a, length(3), b, length(4), &w) == (enum dsr_status)status);
    memset(&want, 0, sizeof want);
    want.lent[0] = a, want.lent[1] = b;
    want.number[0] = wide(1), want.number[1] = wide(2), want.number[2] = length(3), want.number[3] = length(4);
    EXPECT(memcmp(&got, &want, sizeof want) == 0);
    EXPECT(w.status == (enum dsr_status)status && w.place == (status ? play_place : 0) && w.octets == (status ? 0 : play_place));
}

static void expect_passed(uint64_t from, uint64_t least, uint64_t choices, uint64_t numbers) {
    memset(&want, 0, sizeof want);
    want.lent[0] = a, want.lent[1] = tables.codebook, want.lent[2] = tables.thresholds, want.lent[3] = b, want.lent[4] = c;
    want.number[0] = length(1), want.number[1] = from, want.number[2] = least, want.number[3] = 1280, want.number[4] = 14;
    want.number[5] = length(2), want.number[6] = length(3), want.number[7] = numbers, want.number[8] = choices;
    EXPECT(memcmp(&got, &want, sizeof want) == 0);
}

static void expect_said(const struct dsr_reading *r, uint32_t status, int hunts) {
    EXPECT(r->status == (enum dsr_status)status && r->place == (status ? play_place : 0));
    EXPECT(r->rate == (status ? 255 : play[0]) && r->type == (status ? 0 : play[1]) && r->multiframes == (status ? 0 : play[2]));
    EXPECT(r->speech == (status ? 0 : play[3]) && r->bad == (status ? 0 : play[4]) && r->end == (status ? 0 : play[5]));
    EXPECT(r->outside == (status || !hunts ? 0 : play[6]) && r->tested == (status || !hunts ? 0 : play[7]));
}

static void reads_pass(uint32_t status) {
    struct dsr_reading r;
    memset(&r, 0xA5, sizeof r);
    play_status = status, play_place = wide(7);
    EXPECT(dsr_read_utterance(a, length(1), wide(6), &tables, b, length(2), c, length(3), &r) == (enum dsr_status)status);
    expect_passed(0, 0, wide(6), 6);
    expect_said(&r, status, 0);
    memset(&r, 0xA5, sizeof r);
    EXPECT(dsr_hunt_utterance(a, length(1), wide(4), wide(5), wide(6), &tables, b, length(2), c, length(3), &r) == (enum dsr_status)status);
    expect_passed(wide(4), wide(5), wide(6), 8);
    expect_said(&r, status, 1);
}

static void settle_passes(uint32_t status) {
    struct dsr_settled s;
    memset(&s, 0xA5, sizeof s);
    play_status = status, play_place = wide(7);
    EXPECT(dsr_settle_utterance(a, length(1), wide(6), &s) == (enum dsr_status)status);
    memset(&want, 0, sizeof want);
    want.lent[0] = a;
    want.number[0] = length(1), want.number[1] = wide(6), want.number[2] = 3;
    EXPECT(memcmp(&got, &want, sizeof want) == 0);
    EXPECT(s.status == (enum dsr_status)status && s.place == (status ? play_place : 0));
    EXPECT(s.rate == (status ? 255 : play[0]) && s.type == (status ? 0 : play[1]) && s.multiframes == (status ? 0 : play[2]));
}

static void hunt_passes(uint32_t status) {
    struct dsr_hunted h;
    memset(&h, 0xA5, sizeof h);
    play_status = status, play_place = wide(7), play_found = wide(8), play_tested = wide(9);
    EXPECT(dsr_hunt_multiframe(a, length(1), wide(4), wide(5), &h) == (enum dsr_status)status);
    EXPECT(got.lent[0] == a && got.number[0] == length(1) && got.number[1] == wide(4) && got.number[2] == wide(5));
    EXPECT(h.status == (enum dsr_status)status && h.place == (status ? play_place : 0) && h.found == (status ? UINT64_MAX : play_found));
    EXPECT(h.tested == play_tested);
}

int main(void) {
    static const uint64_t answers[3][8] = {
        {3, 1, 255, 6119, 3059, 0, 0, 0}, {1, 0, 1, 0, 11, 1, 0, 0}, {0, 1, 16, 300, 256, 0, 0, 0}};
    for (unsigned k = 0; k < 3; k++) {
        memcpy(play, answers[k], sizeof play);
        play[6] = wide(10), play[7] = wide(11);
        for (uint32_t status = 0; status < 100; status++) {
            write_passes(status);
            reads_pass(status);
            settle_passes(status);
            hunt_passes(status);
        }
    }
    struct dsr_hunted h;
    memset(&h, 0xA5, sizeof h);
    EXPECT(dsr_hunt_multiframe(NULL, 1, 0, 14, &h) == DSR_WRONG_LENGTH && h.status == DSR_WRONG_LENGTH);
    EXPECT(DSR_HEADER_LOST == 3 && DSR_HEADER_COUNTER == 4 && DSR_HEADER_DIFFERS == 8);
    EXPECT(DSR_RATE_8_KHZ == 0 && DSR_RATE_11_KHZ == 1 && DSR_RATE_16_KHZ == 3 && DSR_STANDARD == 0 && DSR_NOISE_ROBUST == 1);
    EXPECT(DSR_ANSWER_NUMBERS == 6 && DSR_SETTLE_ANSWER_NUMBERS == 3 && DSR_BITS_ANSWER_NUMBERS == 8);
    EXPECT(DSR_DEFAULT_CHOICES == 0 && DSR_ONE_HEADER_SETTLES == 1 && DSR_NO_SUCH_CHOICE == 96);
    printf("%u expectations met\n", met);
    return 0;
}
