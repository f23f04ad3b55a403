/* Tests every inline function of dsr.h, as C99, C++11 and C++20: the values on success, what a refusal leaves in the struct, null pointers,
 * and numbers that are too wide; and of the proved functions what they say of an only multiframe, of a choice that there is not and of a
 * negative threshold, and all that dsr_settle says. Two multiframes are read alike by either rule, so all that is expected of them is tried
 * with both. Prints how many expectations were met, or the first that was not. */
#include <stdio.h>
#include <stdlib.h>
#include <string.h>

#include "../../c/dsr.h"

enum { FRAMES = 30, MULTIFRAMES = 2, IDLE_BITS = 19, MARK = 0xA5 };

static uint8_t said[FRAMES * DSR_FRAME_INDICES];
static uint8_t image[MULTIFRAMES * DSR_MULTIFRAME_OCTETS];
static uint8_t modem[sizeof image + 4];
static uint8_t recorded[sizeof image + 4], crowd[(DSR_MOST_MULTIFRAMES + 1) * DSR_MULTIFRAME_OCTETS];
static uint8_t heard[MULTIFRAMES * DSR_MULTIFRAME_INDICES];
static uint8_t report[MULTIFRAMES * DSR_MULTIFRAME_REPORT];
static uint64_t answer[DSR_BITS_ANSWER_NUMBERS], place;
static struct dsr_tables zero;
static unsigned met;

static void expect_at(int line, int holds, const char *what) {
    if (!holds) {
        printf("line %d: not so: %s\n", line, what);
        exit(1);
    }
    met++;
}
#define EXPECT(what) expect_at(__LINE__, (what), #what)

/* Marks in all lent memory, which a refusal has to leave. */
static void mark(void) {
    memset(heard, MARK, sizeof heard);
    memset(report, MARK, sizeof report);
    memset(answer, MARK, sizeof answer);
    memset(&place, MARK, sizeof place);
}

static int marked(const void *memory, size_t len) {
    const uint8_t *octets = (const uint8_t *)memory;
    for (size_t i = 0; i < len; i++)
        if (octets[i] != MARK) return 0;
    return 1;
}

static int buffers_stay(void) {
    return marked(heard, sizeof heard) && marked(report, sizeof report) && marked(answer, sizeof answer);
}

static int marks_stay(void) { return buffers_stay() && marked(&place, sizeof place); }

static void expect_version(void) {
    char text[32];
    snprintf(text, sizeof text, "%d.%d.%d", DSR_VERSION_MAJOR, DSR_VERSION_MINOR, DSR_VERSION_PATCH);
    EXPECT(strcmp(text, DSR_VERSION_TEXT) == 0);
    EXPECT(DSR_VERSION == 400);
}

static void expect_sizes(void) {
    EXPECT(dsr_multiframes_for_frames(0) == 1 && dsr_multiframes_for_frames(23) == 1 && dsr_multiframes_for_frames(24) == 2);
    EXPECT(dsr_multiframes_for_frames(6119) == 255 && dsr_multiframes_for_frames(6120) == 0);
    EXPECT(dsr_octets_for_frames(0) == 144 && dsr_octets_for_frames(24) == 288 && dsr_octets_for_frames(6119) == 36720);
    EXPECT(dsr_octets_for_frames(6120) == 0 && dsr_octets_for_frames((size_t)-1) == 0);
    EXPECT(dsr_multiframes_in(0) == 0 && dsr_multiframes_in(143) == 0 && dsr_multiframes_in(144) == 1 && dsr_multiframes_in(290) == 2);
    EXPECT(dsr_multiframes_in(36720) == 255 && dsr_multiframes_in((size_t)-1) == 255);
    EXPECT(dsr_index_octets(0) == 0 && dsr_index_octets(1) == 168 && dsr_index_octets(255) == 42840 && dsr_index_octets(256) == 0);
    EXPECT(dsr_report_octets(0) == 0 && dsr_report_octets(1) == 13 && dsr_report_octets(255) == 3315 && dsr_report_octets(256) == 0);
}

/* Of the numbers to 1,000 exactly those of the enum have words of their own, and no two have the same. */
static void expect_texts(void) {
    const char *none = dsr_status_text(1000);
    unsigned known = 0;
    for (uint32_t a = 0; a < 1000; a++) {
        if (strcmp(dsr_status_text(a), none) == 0) continue;
        known++;
        for (uint32_t b = 0; b < a; b++)
            if (strcmp(dsr_status_text(a), dsr_status_text(b)) == 0) expect_at(__LINE__, 0, "two statuses have the same words");
    }
    EXPECT(known == 24);
    EXPECT(strcmp(dsr_status_text(DSR_DONE), "done") == 0);
    EXPECT(strcmp(dsr_status_text(DSR_READ_THRESHOLD), "a negative threshold") == 0 && DSR_READ_THRESHOLD == 10);
    EXPECT(strcmp(dsr_status_text(DSR_READ_CUT), "sync with too few octets, or a lone last 87 or 78") == 0);
    EXPECT(strcmp(dsr_status_text(DSR_HUNT_MATCH), "T outside 12 to 16") == 0);
    EXPECT(strcmp(dsr_status_text(DSR_NO_SUCH_CHOICE), "no such choice") == 0);
}

static void expect_not_written(const struct dsr_writing *w, enum dsr_status got, enum dsr_status status, uint64_t place) {
    EXPECT(got == status && w->status == status);
    EXPECT(w->place == place && w->octets == 0);
}

/* A C int is widened, not cut: 256 does not become 0, 8 kHz. */
static void expect_wide_settings_refused(void) {
    const int wide[] = {256, -1, -256, 2, 65536, 259};
    struct dsr_writing w;
    for (size_t i = 0; i < sizeof wide / sizeof *wide; i++) {
        uint64_t number = (uint64_t)wide[i];
        expect_not_written(&w, dsr_write_utterance(number, 0, said, sizeof said, image, sizeof image, &w), DSR_WRITE_SETTINGS, 0);
        expect_not_written(&w, dsr_write_utterance(0, number, said, sizeof said, image, sizeof image, &w), DSR_WRITE_SETTINGS, 0);
    }
    for (unsigned bits = 32; bits <= 56; bits += 8) {
        uint64_t number = (uint64_t)1 << bits;
        expect_not_written(&w, dsr_write_utterance(number, 0, said, sizeof said, image, sizeof image, &w), DSR_WRITE_SETTINGS, 0);
        expect_not_written(&w, dsr_write_utterance(0, number, said, sizeof said, image, sizeof image, &w), DSR_WRITE_SETTINGS, 0);
    }
}

static void expect_writing_refusals(void) {
    struct dsr_writing w;
    uint8_t frame[DSR_FRAME_INDICES] = {1, 2, 3, 4, 5, 64, 7}, out[DSR_MULTIFRAME_OCTETS];
    expect_not_written(&w, dsr_write_utterance(0, 0, said, 8, image, sizeof image, &w), DSR_WRITE_INDEX_COUNT, 8);
    expect_not_written(&w, dsr_write_utterance(0, 0, frame, sizeof frame, out, sizeof out, &w), DSR_WRITE_INDEX_VALUE, 1);
    memset(frame, 0, sizeof frame);
    expect_not_written(&w, dsr_write_utterance(0, 0, frame, sizeof frame, out, sizeof out, &w), DSR_WRITE_ZERO_FRAME, 1);
    expect_not_written(&w, dsr_write_utterance(0, 0, said, sizeof said, image, 287, &w), DSR_WRITE_OUTPUT_SHORT, 288);
}

/* A null pointer is nothing if its length is 0, and refused before all else with any other. */
static void expect_writing_null(void) {
    struct dsr_writing w;
    uint8_t out[DSR_MULTIFRAME_OCTETS];
    EXPECT(dsr_write_utterance(DSR_RATE_16_KHZ, DSR_NOISE_ROBUST, NULL, 0, out, sizeof out, &w) == DSR_DONE);
    EXPECT(w.status == DSR_DONE && w.place == 0 && w.octets == 144 && out[0] == 0x87 && out[1] == 0xB2);
    expect_not_written(&w, dsr_write_utterance(0, 0, NULL, 0, NULL, 0, &w), DSR_WRITE_OUTPUT_SHORT, 144);
    expect_not_written(&w, dsr_write_utterance(2, 0, NULL, 7, out, sizeof out, &w), DSR_WRONG_LENGTH, 0);
    expect_not_written(&w, dsr_write_utterance(2, 0, said, SIZE_MAX, out, sizeof out, &w), DSR_WRONG_LENGTH, 0);
    expect_not_written(&w, dsr_write_utterance(0, 0, said, sizeof said, NULL, 288, &w), DSR_WRONG_LENGTH, 0);
}

static void expect_writing(void) {
    struct dsr_writing w;
    EXPECT(dsr_write_utterance(DSR_RATE_11_KHZ, DSR_STANDARD, said, sizeof said, image, sizeof image, &w) == DSR_DONE);
    EXPECT(w.status == DSR_DONE && w.place == 0 && w.octets == sizeof image && w.octets == dsr_octets_for_frames(FRAMES));
}

static void expect_not_read(const struct dsr_reading *r, enum dsr_status got, enum dsr_status status, uint64_t place) {
    EXPECT(got == status && r->status == status);
    EXPECT(r->place == place && r->rate == DSR_RATE_NONE && r->rate == 255);
    EXPECT(r->type == 0 && r->multiframes == 0 && r->speech == 0 && r->bad == 0 && r->end == 0 && r->outside == 0 && r->tested == 0);
    EXPECT(marks_stay());
}

static void expect_read(const struct dsr_reading *r, enum dsr_status got, unsigned bad, uint64_t outside, uint64_t tested) {
    EXPECT(got == DSR_DONE && r->status == DSR_DONE && r->place == 0);
    EXPECT(r->rate == DSR_RATE_11_KHZ && r->type == DSR_STANDARD && r->multiframes == MULTIFRAMES && r->speech == FRAMES);
    EXPECT(r->bad == bad && r->end == 1 && r->outside == outside && r->tested == tested);
    if (bad == 0) EXPECT(memcmp(heard, said, sizeof said) == 0);
    for (size_t i = sizeof said; i < sizeof heard; i++) EXPECT(heard[i] == 0);
}

static void expect_reading(uint64_t rule) {
    struct dsr_reading r;
    mark();
    expect_read(&r, dsr_read_utterance(image, sizeof image, rule, &zero, heard, sizeof heard, report, sizeof report, &r), 0, 0, 0);
    for (size_t i = 0; i < sizeof report; i++) EXPECT(report[i] == 0);
    image[6] ^= 1;
    expect_read(&r, dsr_read_utterance(image, sizeof image, rule, &zero, heard, sizeof heard, report, sizeof report, &r), 1, 0, 0);
    EXPECT(report[1] == DSR_PAIR_CRC && memcmp(heard, said + 2 * DSR_FRAME_INDICES, DSR_FRAME_INDICES) == 0);
    image[6] ^= 1;
}

/* A struct that was used before shows a refusal all the same. */
static void expect_reading_refusals(uint64_t rule) {
    struct dsr_reading r;
    const size_t n = sizeof image, h = sizeof heard, p = sizeof report;
    memset(&r, MARK, sizeof r);
    mark();
    expect_not_read(&r, dsr_read_utterance(image, 287, rule, &zero, heard, h, report, p, &r), DSR_READ_CUT, 144);
    expect_not_read(&r, dsr_read_utterance(said, sizeof said, rule, &zero, heard, h, report, p, &r), DSR_READ_UNKNOWN, 0);
    expect_not_read(&r, dsr_read_utterance(image, n, rule, &zero, heard, 335, report, p, &r), DSR_READ_INDEX_SHORT, 336);
    expect_not_read(&r, dsr_read_utterance(image, n, rule, &zero, heard, h, report, 25, &r), DSR_READ_REPORT_SHORT, 26);
}

static void expect_reading_null(uint64_t rule) {
    struct dsr_reading r;
    const size_t n = sizeof image, h = sizeof heard, p = sizeof report;
    mark();
    expect_not_read(&r, dsr_read_utterance(image, n, rule, NULL, heard, h, report, p, &r), DSR_READ_TABLES, 0);
    expect_not_read(&r, dsr_read_utterance(NULL, 0, rule, &zero, heard, h, report, p, &r), DSR_READ_NO_MULTIFRAME, 0);
    expect_not_read(&r, dsr_read_utterance(image, n, rule, &zero, NULL, 0, report, p, &r), DSR_READ_INDEX_SHORT, 336);
    expect_not_read(&r, dsr_read_utterance(image, n, rule, &zero, heard, h, NULL, 0, &r), DSR_READ_REPORT_SHORT, 26);
    expect_not_read(&r, dsr_read_utterance(image, SIZE_MAX, rule, &zero, heard, h, report, p, &r), DSR_WRONG_LENGTH, 0);
    expect_not_read(&r, dsr_read_utterance(NULL, 1, rule, NULL, heard, h, report, p, &r), DSR_WRONG_LENGTH, 0);
    expect_not_read(&r, dsr_read_utterance(image, n, rule, &zero, NULL, 336, report, p, &r), DSR_WRONG_LENGTH, 0);
    expect_not_read(&r, dsr_read_utterance(image, n, rule, &zero, heard, h, NULL, 26, &r), DSR_WRONG_LENGTH, 0);
}

static void set_thresholds(struct dsr_tables *tables, int32_t all) {
    for (size_t i = 0; i < DSR_THRESHOLD_NUMBERS; i++) tables->thresholds[i] = all;
}

/* The notes of pair 2, in which each index rises by 7, of pair 3, whose CRC fails, and of pair 4, in which each index falls by 56. */
static void expect_judged(uint64_t rule, const struct dsr_tables *tables, uint8_t rising, uint8_t falling) {
    struct dsr_reading r;
    image[6 + 92 * 3 / 8] ^= 0x10; /* stream bit 280, in pair 3 */
    EXPECT(dsr_read_utterance(image, sizeof image, rule, tables, heard, sizeof heard, report, sizeof report, &r) == DSR_DONE);
    EXPECT(report[3] == rising && report[4] == DSR_PAIR_CRC && report[5] == falling);
    EXPECT(dsr_hunt_utterance(image, sizeof image, 0, 16, rule, tables, heard, sizeof heard, report, sizeof report, &r) == DSR_DONE);
    EXPECT(report[3] == rising && report[4] == DSR_PAIR_CRC && report[5] == falling);
    image[6 + 92 * 3 / 8] ^= 0x10;
}

/* Each table is lent at its place, and a fall counts as much as a rise: by a codebook that goes up from number to number, and by one that
 * goes down as much. */
static void expect_tables_lent(uint64_t rule) {
    static struct dsr_tables steps;
    for (int32_t step = -1; step <= 1; step += 2) {
        for (int32_t i = 0; i < DSR_CODEBOOK_NUMBERS; i++) steps.codebook[i] = step * i;
        set_thresholds(&steps, 13);
        expect_judged(rule, &steps, DSR_PAIR_BAD, DSR_PAIR_BAD);
        set_thresholds(&steps, 14);
        expect_judged(rule, &steps, DSR_PAIR_GOOD, DSR_PAIR_BAD);
        set_thresholds(&steps, 111);
        expect_judged(rule, &steps, DSR_PAIR_GOOD, DSR_PAIR_BAD);
        set_thresholds(&steps, 112);
        expect_judged(rule, &steps, DSR_PAIR_GOOD, DSR_PAIR_GOOD);
    }
}

/* A fall and a rise of 33 bits exceed the largest threshold. */
static void expect_exact_difference(uint64_t rule) {
    static struct dsr_tables edges;
    set_thresholds(&edges, INT32_MAX);
    for (size_t i = 0; i < DSR_CODEBOOK_NUMBERS; i++) edges.codebook[i] = i / 2 % 64 < 32 ? INT32_MIN : INT32_MAX;
    expect_judged(rule, &edges, DSR_PAIR_BAD, DSR_PAIR_BAD);
    for (size_t i = 0; i < DSR_CODEBOOK_NUMBERS; i++) edges.codebook[i] = i / 2 % 64 < 32 ? 0 : INT32_MAX;
    expect_judged(rule, &edges, DSR_PAIR_GOOD, DSR_PAIR_GOOD);
}

/* The image behind idle bits that end in the middle of an octet. */
static void send_through_modem(void) {
    memset(modem, 0, sizeof modem);
    for (size_t t = 0; t < 8 * sizeof image; t++)
        modem[(IDLE_BITS + t) / 8] = (uint8_t)(modem[(IDLE_BITS + t) / 8] | (image[t / 8] >> t % 8 & 1) << (IDLE_BITS + t) % 8);
}

static void expect_hunted(void) {
    struct dsr_hunted h;
    EXPECT(dsr_hunt_multiframe(modem, sizeof modem, 0, 14, &h) == DSR_DONE);
    EXPECT(h.status == DSR_DONE && h.place == 0 && h.found == IDLE_BITS && h.tested == IDLE_BITS + 1);
    EXPECT(dsr_hunt_multiframe(modem, sizeof modem, 0, 17, &h) == DSR_HUNT_MATCH);
    EXPECT(h.status == DSR_HUNT_MATCH && h.place == 17 && h.found == UINT64_MAX && h.tested == 0);
    EXPECT(dsr_hunt_multiframe(modem, sizeof modem, IDLE_BITS + 1152 + 1, 14, &h) == DSR_HUNT_NOWHERE);
    EXPECT(h.status == DSR_HUNT_NOWHERE && h.place == IDLE_BITS + 1153 && h.found == UINT64_MAX && h.tested == 13);
    EXPECT(dsr_hunt_multiframe(NULL, 0, 5, 14, &h) == DSR_HUNT_NOWHERE && h.place == 5 && h.found == UINT64_MAX && h.tested == 0);
    EXPECT(dsr_hunt_multiframe(NULL, 144, 5, 17, &h) == DSR_WRONG_LENGTH && h.place == 0 && h.found == UINT64_MAX && h.tested == 0);
}

static void expect_hunt_reads(uint64_t rule) {
    struct dsr_reading r;
    mark();
    expect_read(&r, dsr_hunt_utterance(modem, sizeof modem, 0, 14, rule, &zero, heard, sizeof heard, report, sizeof report, &r), 0, 32, 21);
    for (size_t i = 0; i < sizeof report; i++) EXPECT(report[i] == 0);
    expect_read(&r, dsr_hunt_utterance(modem, sizeof modem, 19, 16, rule, &zero, heard, sizeof heard, report, sizeof report, &r), 0, 13, 2);
}

static void expect_hunt_refusals(uint64_t rule) {
    struct dsr_reading r;
    const size_t n = sizeof modem, h = sizeof heard, p = sizeof report;
    mark();
    expect_not_read(&r, dsr_hunt_utterance(modem, n, 0, 11, rule, NULL, heard, h, report, p, &r), DSR_READ_TABLES, 0);
    expect_not_read(&r, dsr_hunt_utterance(modem, n, 0, 11, rule, &zero, heard, h, report, p, &r), DSR_HUNT_MATCH, 11);
    expect_not_read(&r, dsr_hunt_utterance(modem, n, 9999, 12, rule, &zero, heard, h, report, p, &r), DSR_HUNT_NOWHERE, 9999);
    expect_not_read(&r, dsr_hunt_utterance(modem, n, 0, 14, rule, &zero, NULL, 0, report, p, &r), DSR_READ_INDEX_SHORT, 336);
    expect_not_read(&r, dsr_hunt_utterance(modem, n, 0, 14, rule, &zero, heard, h, NULL, 0, &r), DSR_READ_REPORT_SHORT, 26);
    expect_not_read(&r, dsr_hunt_utterance(NULL, 0, 0, 14, rule, &zero, heard, h, report, p, &r), DSR_HUNT_NOWHERE, 0);
    expect_not_read(&r, dsr_hunt_utterance(NULL, 1, 0, 11, rule, NULL, heard, h, report, p, &r), DSR_WRONG_LENGTH, 0);
    expect_not_read(&r, dsr_hunt_utterance(modem, n, 0, 14, rule, &zero, NULL, 336, report, p, &r), DSR_WRONG_LENGTH, 0);
    expect_not_read(&r, dsr_hunt_utterance(modem, n, 0, 14, rule, &zero, heard, h, NULL, 26, &r), DSR_WRONG_LENGTH, 0);
}

/* dsr_read and dsr_read_bits themselves, of so many octets of the image, a codebook of that length and an answer of that length. */
static uint32_t plain_read(size_t octets, uint64_t choices, size_t codebook_len, size_t answer_len) {
    mark();
    return dsr_read(image, octets, choices, zero.codebook, codebook_len, zero.thresholds, DSR_THRESHOLD_NUMBERS, heard, sizeof heard,
                    report, sizeof report, answer, answer_len, &place);
}

static uint32_t plain_read_bits(size_t octets, uint64_t choices, size_t codebook_len, size_t answer_len) {
    mark();
    return dsr_read_bits(image, octets, 0, DSR_LEAST_MATCH, choices, zero.codebook, codebook_len, zero.thresholds, DSR_THRESHOLD_NUMBERS,
                         heard, sizeof heard, report, sizeof report, answer, answer_len, &place);
}

/* Both readers refuse these thresholds with 10 and that place, whatever else would be refused behind it; a struct that was used before shows
 * it all the same. */
static void expect_negative(uint64_t rule, const struct dsr_tables *tables, uint64_t first) {
    const size_t n = sizeof image, h = sizeof heard, p = sizeof report;
    struct dsr_reading r;
    memset(&r, MARK, sizeof r);
    mark();
    expect_not_read(&r, dsr_read_utterance(image, n, rule, tables, heard, h, report, p, &r), DSR_READ_THRESHOLD, first);
    expect_not_read(&r, dsr_read_utterance(said, sizeof said, rule, tables, heard, h, report, p, &r), DSR_READ_THRESHOLD, first);
    expect_not_read(&r, dsr_read_utterance(image, n - 1, rule, tables, heard, h, report, p, &r), DSR_READ_THRESHOLD, first);
    expect_not_read(&r, dsr_read_utterance(NULL, 0, rule, tables, heard, h, report, p, &r), DSR_READ_THRESHOLD, first);
    expect_not_read(&r, dsr_read_utterance(image, 144, rule, tables, NULL, 0, NULL, 0, &r), DSR_READ_THRESHOLD, first);
    expect_not_read(&r, dsr_hunt_utterance(image, n, 0, 14, rule, tables, heard, h, report, p, &r), DSR_READ_THRESHOLD, first);
    expect_not_read(&r, dsr_hunt_utterance(image, n, 0, 11, rule, tables, heard, h, report, p, &r), DSR_READ_THRESHOLD, first);
    expect_not_read(&r, dsr_hunt_utterance(image, n, 9999, 14, rule, tables, heard, h, report, p, &r), DSR_READ_THRESHOLD, first);
    expect_not_read(&r, dsr_hunt_utterance(NULL, 0, 5, 17, rule, tables, NULL, 0, NULL, 0, &r), DSR_READ_THRESHOLD, first);
    expect_not_read(&r, dsr_read_utterance(image, n, 2, tables, heard, h, report, p, &r), DSR_NO_SUCH_CHOICE, 0);
    expect_not_read(&r, dsr_hunt_utterance(NULL, 1, 0, 14, rule, tables, heard, h, report, p, &r), DSR_WRONG_LENGTH, 0);
}

/* Each threshold alone, and each with each behind it, however low. */
static void expect_negative_thresholds(uint64_t rule) {
    static const int32_t negative[] = {-1, INT32_MIN, -112};
    static struct dsr_tables tables;
    for (size_t i = 0; i < sizeof negative / sizeof *negative; i++) {
        for (size_t first = 0; first < DSR_THRESHOLD_NUMBERS; first++) {
            set_thresholds(&tables, i == 0 ? 0 : INT32_MAX);
            tables.thresholds[first] = negative[i];
            expect_negative(rule, &tables, first);
            for (size_t second = first + 1; second < DSR_THRESHOLD_NUMBERS; second++) {
                tables.thresholds[second] = INT32_MIN;
                expect_negative(rule, &tables, first);
            }
        }
    }
}

static const int32_t all_negative[DSR_THRESHOLD_NUMBERS + 1] = {-1, -1, -1, -1, -1, -1, -1, -1, -1, -1, -1, -1, -1, -1, -1};

/* dsr_read and dsr_read_bits themselves, with so many thresholds, all negative, so much of a codebook and so long an answer. */
static uint32_t negative_read(uint64_t choices, size_t codebook_len, size_t thresholds_len, size_t answer_len) {
    mark();
    return dsr_read(image, sizeof image, choices, zero.codebook, codebook_len, all_negative, thresholds_len, heard, sizeof heard,
                    report, sizeof report, answer, answer_len, &place);
}

static uint32_t negative_read_bits(uint64_t choices, size_t codebook_len, size_t thresholds_len, size_t answer_len) {
    mark();
    return dsr_read_bits(image, sizeof image, 0, 17, choices, zero.codebook, codebook_len, all_negative, thresholds_len, heard,
                         sizeof heard, report, sizeof report, answer, answer_len, &place);
}

/* 99 comes first, then 96, then 11, then 10. */
static void expect_negative_in_turn(uint64_t rule) {
    const size_t c = DSR_CODEBOOK_NUMBERS, t = DSR_THRESHOLD_NUMBERS, six = DSR_ANSWER_NUMBERS, eight = DSR_BITS_ANSWER_NUMBERS;
    EXPECT(negative_read(rule, c, t, six) == DSR_READ_THRESHOLD && place == 0 && buffers_stay());
    EXPECT(negative_read_bits(rule, c, t, eight) == DSR_READ_THRESHOLD && place == 0 && buffers_stay());
    for (size_t wrong = t - 1; wrong <= t + 1; wrong += 2) {
        EXPECT(negative_read(rule, c, wrong, six) == DSR_READ_TABLES && place == 0 && buffers_stay());
        EXPECT(negative_read_bits(rule, c, wrong, eight) == DSR_READ_TABLES && place == 0 && buffers_stay());
    }
    EXPECT(negative_read(rule, c - 1, t, six) == DSR_READ_TABLES && place == 0 && buffers_stay());
    EXPECT(negative_read_bits(rule, c - 1, t, eight) == DSR_READ_TABLES && place == 0 && buffers_stay());
    EXPECT(negative_read(2, c, t, six) == DSR_NO_SUCH_CHOICE && marks_stay());
    EXPECT(negative_read_bits(2, c, t, eight) == DSR_NO_SUCH_CHOICE && marks_stay());
    EXPECT(negative_read(rule, c, t, six - 1) == DSR_READ_ANSWER_SHORT && marks_stay());
    EXPECT(negative_read_bits(rule, c, t, eight - 1) == DSR_READ_ANSWER_SHORT && marks_stay());
}

/* An only multiframe is refused by default, however clean; 16 comes behind 11 and 10 and before 18. */
static void expect_only_refused(void) {
    const size_t one = DSR_MULTIFRAME_OCTETS, h = sizeof heard, p = sizeof report;
    const uint64_t rule = DSR_DEFAULT_CHOICES;
    struct dsr_reading r;
    EXPECT(plain_read(one, rule, DSR_CODEBOOK_NUMBERS, DSR_ANSWER_NUMBERS) == DSR_READ_UNSETTLED && place == 0 && buffers_stay());
    EXPECT(plain_read_bits(one, rule, DSR_CODEBOOK_NUMBERS, DSR_BITS_ANSWER_NUMBERS) == DSR_READ_UNSETTLED && place == 0 && buffers_stay());
    EXPECT(plain_read(one, rule, 0, DSR_ANSWER_NUMBERS) == DSR_READ_TABLES && place == 0 && buffers_stay());
    mark();
    expect_not_read(&r, dsr_read_utterance(image, one, rule, &zero, heard, h, report, p, &r), DSR_READ_UNSETTLED, 0);
    expect_not_read(&r, dsr_read_utterance(image, one, rule, &zero, NULL, 0, NULL, 0, &r), DSR_READ_UNSETTLED, 0);
    expect_not_read(&r, dsr_hunt_utterance(image, one, 0, 16, rule, &zero, heard, h, report, p, &r), DSR_READ_UNSETTLED, 0);
    expect_not_read(&r, dsr_hunt_utterance(image, one, 0, 16, rule, NULL, heard, h, report, p, &r), DSR_READ_TABLES, 0);
}

static void expect_only_read(const struct dsr_reading *r, enum dsr_status got) {
    EXPECT(got == DSR_DONE && r->status == DSR_DONE && r->rate == DSR_RATE_11_KHZ && r->type == DSR_STANDARD);
    EXPECT(r->multiframes == 1 && r->speech == 24 && r->bad == 0 && r->end == 0 && r->outside == 0);
    EXPECT(memcmp(heard, said, DSR_MULTIFRAME_INDICES) == 0);
    EXPECT(marked(heard + DSR_MULTIFRAME_INDICES, sizeof heard - DSR_MULTIFRAME_INDICES));
    for (size_t i = 0; i < DSR_MULTIFRAME_REPORT; i++) EXPECT(report[i] == 0);
    EXPECT(marked(report + DSR_MULTIFRAME_REPORT, sizeof report - DSR_MULTIFRAME_REPORT));
}

static void expect_only_read_by_name(void) {
    const size_t one = DSR_MULTIFRAME_OCTETS, h = sizeof heard, p = sizeof report;
    const uint64_t rule = DSR_ONE_HEADER_SETTLES;
    struct dsr_reading r;
    mark();
    expect_only_read(&r, dsr_read_utterance(image, one, rule, &zero, heard, h, report, p, &r));
    mark();
    expect_only_read(&r, dsr_hunt_utterance(image, one, 0, 16, rule, &zero, heard, h, report, p, &r));
    mark();
    expect_not_read(&r, dsr_read_utterance(image, one, rule, &zero, NULL, 0, report, p, &r), DSR_READ_INDEX_SHORT, 168);
    expect_not_read(&r, dsr_hunt_utterance(image, one, 0, 16, rule, &zero, heard, h, NULL, 0, &r), DSR_READ_REPORT_SHORT, 13);
}

/* An only header that is no codeword settles by neither rule: with one flip or two it is mended, with three it is lost and not found. */
static void expect_touched_header_refused(uint64_t rule) {
    const size_t one = DSR_MULTIFRAME_OCTETS, h = sizeof heard, p = sizeof report;
    static const uint8_t flips[3] = {0x01, 0x81, 0x83};
    struct dsr_reading r;
    mark();
    for (size_t i = 0; i < sizeof flips; i++) {
        enum dsr_status hunted = flips[i] == 0x83 ? DSR_HUNT_NOWHERE : DSR_READ_UNSETTLED;
        image[2] = (uint8_t)(image[2] ^ flips[i]);
        expect_not_read(&r, dsr_read_utterance(image, one, rule, &zero, heard, h, report, p, &r), DSR_READ_UNSETTLED, 0);
        expect_not_read(&r, dsr_hunt_utterance(image, one, 0, 16, rule, &zero, heard, h, report, p, &r), hunted, 0);
        image[2] = (uint8_t)(image[2] ^ flips[i]);
    }
}

/* Every other number is no choice, also one that is a choice where it is cut to fewer bits. It comes behind a short answer and before all
 * else, and all lent memory stays, the place too. */
static void expect_no_such_choice(void) {
    static const uint64_t none[] = {2, 3, 255, 256, 257, 65536, 65537, 0x100000000, 0x100000001, 0x8000000000000001, UINT64_MAX};
    static const size_t lengths[] = {0, 143, 144, sizeof image}; /* refused with 14 and 13, one multiframe, two */
    const size_t n = sizeof image, h = sizeof heard, p = sizeof report, six = DSR_ANSWER_NUMBERS, eight = DSR_BITS_ANSWER_NUMBERS;
    struct dsr_reading r;
    for (size_t i = 0; i < sizeof none / sizeof *none; i++) {
        for (size_t k = 0; k < sizeof lengths / sizeof *lengths; k++) {
            for (size_t codebook = 0; codebook <= DSR_CODEBOOK_NUMBERS; codebook += DSR_CODEBOOK_NUMBERS) {
                EXPECT(plain_read(lengths[k], none[i], codebook, six) == DSR_NO_SUCH_CHOICE && marks_stay());
                EXPECT(plain_read_bits(lengths[k], none[i], codebook, eight) == DSR_NO_SUCH_CHOICE && marks_stay());
                EXPECT(plain_read(lengths[k], none[i], codebook, six - 1) == DSR_READ_ANSWER_SHORT && marks_stay());
                EXPECT(plain_read_bits(lengths[k], none[i], codebook, eight - 1) == DSR_READ_ANSWER_SHORT && marks_stay());
            }
        }
        expect_not_read(&r, dsr_read_utterance(image, n, none[i], NULL, heard, h, report, p, &r), DSR_NO_SUCH_CHOICE, 0);
        expect_not_read(&r, dsr_hunt_utterance(image, n, 0, 11, none[i], &zero, heard, h, report, p, &r), DSR_NO_SUCH_CHOICE, 0);
        expect_not_read(&r, dsr_read_utterance(NULL, 1, none[i], &zero, heard, h, report, p, &r), DSR_WRONG_LENGTH, 0);
        expect_not_read(&r, dsr_hunt_utterance(NULL, 1, 0, 14, none[i], &zero, heard, h, report, p, &r), DSR_WRONG_LENGTH, 0);
    }
}

/* --- settings without the whole utterance */

static uint32_t plain_settle(const uint8_t *octets, size_t len, uint64_t choices, size_t answer_len) {
    mark();
    return dsr_settle(octets, len, choices, answer, answer_len, &place);
}

/* The proved function and the inline one alike; a struct that was used before shows the answer all the same. */
static void expect_settled(const uint8_t *octets, size_t len, uint64_t rule, unsigned multiframes) {
    struct dsr_settled s;
    memset(&s, MARK, sizeof s);
    EXPECT(plain_settle(octets, len, rule, DSR_BITS_ANSWER_NUMBERS) == DSR_DONE && marked(&place, sizeof place));
    EXPECT(answer[DSR_ANSWER_RATE] == DSR_RATE_11_KHZ && answer[DSR_ANSWER_TYPE] == DSR_STANDARD);
    EXPECT(answer[DSR_ANSWER_MULTIFRAMES] == multiframes);
    EXPECT(marked(answer + DSR_SETTLE_ANSWER_NUMBERS, sizeof answer - DSR_SETTLE_ANSWER_NUMBERS * sizeof *answer));
    EXPECT(plain_settle(octets, len, rule, DSR_SETTLE_ANSWER_NUMBERS) == DSR_DONE && answer[DSR_ANSWER_MULTIFRAMES] == multiframes);
    EXPECT(dsr_settle_utterance(octets, len, rule, &s) == DSR_DONE && s.status == DSR_DONE && s.place == 0);
    EXPECT(s.rate == DSR_RATE_11_KHZ && s.type == DSR_STANDARD && s.multiframes == multiframes);
}

static void expect_refused_struct(const uint8_t *octets, size_t len, uint64_t rule, enum dsr_status status, uint64_t at) {
    struct dsr_settled s;
    memset(&s, MARK, sizeof s);
    EXPECT(dsr_settle_utterance(octets, len, rule, &s) == status && s.status == status && s.place == at);
    EXPECT(s.rate == DSR_RATE_NONE && s.rate == 255 && s.type == 0 && s.multiframes == 0);
}

static void expect_not_settled(const uint8_t *octets, size_t len, uint64_t rule, enum dsr_status status, uint64_t at) {
    EXPECT(plain_settle(octets, len, rule, DSR_SETTLE_ANSWER_NUMBERS) == (uint32_t)status && place == at && buffers_stay());
    expect_refused_struct(octets, len, rule, status, at);
}

static void set_header(uint8_t *multiframe, unsigned message) {
    uint32_t word = dsr_header_encode((uint16_t)message);
    for (unsigned i = 0; i < 4; i++) multiframe[2 + i] = (uint8_t)(word >> 8 * i);
}

/* The image with four octets behind it. */
static void record(uint8_t a, uint8_t b, uint8_t c, uint8_t d) {
    const uint8_t behind[4] = {a, b, c, d};
    memcpy(recorded, image, sizeof image);
    memcpy(recorded + sizeof image, behind, sizeof behind);
}

/* Two headers agree, and nothing behind them matters. */
static void expect_settling(uint64_t rule) {
    static const uint8_t behind[][4] = {{0, 0, 0, 0}, {0x87, 0xB2, 0, 0}, {0x78, 0x4D, 0x87, 0xB2}, {0x87, 0xB2, 0x78, 0x4D}};
    for (size_t i = 0; i < sizeof behind / sizeof *behind; i++) {
        record(behind[i][0], behind[i][1], behind[i][2], behind[i][3]);
        for (size_t more = 0; more <= 4; more++) expect_settled(recorded, sizeof image + more, rule, 2);
    }
    recorded[2] ^= 0x81; /* two flips: mended */
    expect_settled(recorded, sizeof recorded, rule, 2);
    memmove(recorded + 2, image, sizeof image);
    recorded[0] = 0x78, recorded[1] = 0x4D;
    expect_settled(recorded, sizeof image + 2, rule, 2);
    recorded[sizeof image + 1] ^= 1; /* the last octet of a pair: no CRC is tried */
    expect_settled(recorded, sizeof image + 2, rule, 2);
}

static void expect_settling_refusals(uint64_t rule) {
    static const uint8_t inverse[] = {0x78, 0x4D, 0x78, 0x4D, 0x78};
    record(0, 0, 0, 0);
    expect_not_settled(said, sizeof said, rule, DSR_READ_UNKNOWN, 0);
    expect_not_settled(image, sizeof image - 1, rule, DSR_READ_CUT, DSR_MULTIFRAME_OCTETS);
    expect_not_settled(inverse, 5, rule, DSR_READ_CUT, 4);
    expect_not_settled(inverse, 4, rule, DSR_READ_NO_MULTIFRAME, 4);
    recorded[2] ^= 0x83; /* three flips: lost */
    expect_not_settled(recorded, sizeof image, rule, DSR_READ_UNSETTLED, 0);
    expect_not_settled(recorded, sizeof recorded, rule, DSR_READ_UNKNOWN, sizeof image);
    for (unsigned bit = 7; bit <= 16; bit++) { /* every expansion bit, and rate 2 */
        unsigned message = bit < 16 ? 1u << bit | 8 : 2 | 8;
        set_header(recorded, message);
        set_header(recorded + DSR_MULTIFRAME_OCTETS, message);
        expect_not_settled(recorded, sizeof image, rule, DSR_READ_SETTINGS, 0);
        expect_not_settled(recorded, sizeof recorded, rule, DSR_READ_SETTINGS, 0);
    }
}

/* No two of 255 headers agree; the 256th comes too late, even cut. */
static void expect_crowd_refused(uint64_t rule) {
    const size_t most = DSR_MOST_MULTIFRAMES * DSR_MULTIFRAME_OCTETS;
    for (unsigned k = 0; k <= DSR_MOST_MULTIFRAMES; k++) {
        memcpy(crowd + DSR_MULTIFRAME_OCTETS * k, image, DSR_MULTIFRAME_OCTETS);
        set_header(crowd + DSR_MULTIFRAME_OCTETS * k, k == DSR_MOST_MULTIFRAMES ? 1 : (k + 1) << 7);
    }
    expect_not_settled(crowd, most, rule, DSR_READ_UNSETTLED, 0);
    expect_not_settled(crowd, most + 1, rule, DSR_READ_CUT, most);
    expect_not_settled(crowd, most + 2, rule, DSR_READ_TOO_MANY, most);
    expect_not_settled(crowd, sizeof crowd, rule, DSR_READ_TOO_MANY, most);
    set_header(crowd, 1);
    set_header(crowd + most - DSR_MULTIFRAME_OCTETS, 1);
    expect_settled(crowd, sizeof crowd, rule, DSR_MOST_MULTIFRAMES);
}

static void expect_settling_null(uint64_t rule) {
    expect_refused_struct(NULL, 0, rule, DSR_READ_NO_MULTIFRAME, 0);
    expect_refused_struct(NULL, 1, rule, DSR_WRONG_LENGTH, 0);
    expect_refused_struct(NULL, sizeof image, rule, DSR_WRONG_LENGTH, 0);
    expect_refused_struct(image, SIZE_MAX, rule, DSR_WRONG_LENGTH, 0);
    expect_refused_struct(image, SIZE_MAX / 2 + 1, rule, DSR_WRONG_LENGTH, 0);
}

/* An only multiframe settles if that is asked for, it is a codeword, and the octets end with it or with inverse syncs behind it. */
static void expect_only_settles_by_name(void) {
    static const uint8_t behind[] = {0x78, 0x4D, 0x78, 0x4D, 0x00};
    const size_t one = DSR_MULTIFRAME_OCTETS;
    record(0, 0, 0, 0);
    memcpy(recorded + one, behind, sizeof behind);
    for (size_t more = 0; more <= 4; more += 2) {
        expect_not_settled(recorded, one + more, DSR_DEFAULT_CHOICES, DSR_READ_UNSETTLED, 0);
        expect_settled(recorded, one + more, DSR_ONE_HEADER_SETTLES, 1);
    }
    for (uint64_t rule = DSR_DEFAULT_CHOICES; rule <= DSR_ONE_HEADER_SETTLES; rule++) {
        expect_not_settled(recorded, one + 3, rule, DSR_READ_CUT, one + 2);
        expect_not_settled(recorded, one + 5, rule, DSR_READ_UNKNOWN, one + 4);
        recorded[2] ^= 0x01;
        expect_not_settled(recorded, one, rule, DSR_READ_UNSETTLED, 0);
        recorded[2] ^= 0x01;
    }
    set_header(recorded, 2 | 8);
    expect_not_settled(recorded, one, DSR_DEFAULT_CHOICES, DSR_READ_UNSETTLED, 0);
    expect_not_settled(recorded, one, DSR_ONE_HEADER_SETTLES, DSR_READ_SETTINGS, 0);
}

/* A short answer comes before all else, then a choice that there is not; all lent memory stays, the place too. */
static void expect_settling_not_begun(void) {
    static const uint64_t choices[] = {0, 1, 2, 3, 255, 256, 257, 65536, 0x100000000, 0x100000001, 0x8000000000000001, UINT64_MAX};
    static const size_t lengths[] = {0, 143, 144, sizeof image};
    for (size_t i = 0; i < sizeof choices / sizeof *choices; i++) {
        for (size_t k = 0; k < sizeof lengths / sizeof *lengths; k++) {
            for (size_t numbers = 0; numbers < DSR_SETTLE_ANSWER_NUMBERS; numbers++)
                EXPECT(plain_settle(image, lengths[k], choices[i], numbers) == DSR_READ_ANSWER_SHORT && marks_stay());
            if (choices[i] <= DSR_ONE_HEADER_SETTLES) continue;
            EXPECT(plain_settle(image, lengths[k], choices[i], DSR_SETTLE_ANSWER_NUMBERS) == DSR_NO_SUCH_CHOICE && marks_stay());
            expect_refused_struct(image, lengths[k], choices[i], DSR_NO_SUCH_CHOICE, 0);
        }
        expect_refused_struct(NULL, 1, choices[i], DSR_WRONG_LENGTH, 0);
    }
}

int main(void) {
    for (size_t i = 0; i < sizeof said; i++) said[i] = (uint8_t)(i % 63 + 1);
    expect_version();
    expect_sizes();
    expect_texts();
    expect_wide_settings_refused();
    expect_writing_refusals();
    expect_writing_null();
    expect_writing();
    send_through_modem();
    expect_hunted();
    for (uint64_t rule = DSR_DEFAULT_CHOICES; rule <= DSR_ONE_HEADER_SETTLES; rule++) {
        expect_reading(rule);
        expect_reading_refusals(rule);
        expect_reading_null(rule);
        expect_tables_lent(rule);
        expect_exact_difference(rule);
        expect_negative_thresholds(rule);
        expect_negative_in_turn(rule);
        expect_hunt_reads(rule);
        expect_hunt_refusals(rule);
        expect_touched_header_refused(rule);
        expect_settling(rule);
        expect_settling_refusals(rule);
        expect_crowd_refused(rule);
        expect_settling_null(rule);
    }
    expect_only_refused();
    expect_only_read_by_name();
    expect_no_such_choice();
    expect_only_settles_by_name();
    expect_settling_not_begun();
    printf("%u expectations met\n", met);
    return 0;
}
