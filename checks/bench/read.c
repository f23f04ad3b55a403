/* Issue 5: a clean image of 255 multiframes at least 8 times as fast; one with two flips in every header and a quarter of its pairs
 * bad, and one with all headers lost but two, at least 6 times. Smaller ones beside them, to show that time is linear. */
#include "../literal/literal.h"
#include "../../c/dsr.h"
#include "bench.h"

/* Rows of one multiframe are of readings that succeed, as they always were: so all ask for the rule by which one header alone settles. For
 * more multiframes the rule changes nothing. */
enum { ASKED = DSR_ONE_HEADER_SETTLES };

static uint8_t indices[FRAME_INDICES * MOST_FRAMES], image[MULTIFRAME_OCTETS * MOST_MULTIFRAMES];
static uint8_t index_a[INDEX_OCTETS * MOST_MULTIFRAMES], report_a[REPORT_OCTETS * MOST_MULTIFRAMES];
static uint8_t index_b[sizeof index_a], report_b[sizeof report_a];
static int32_t codebook[CODEBOOK_NUMBERS], thresholds[THRESHOLD_NUMBERS];
static uint64_t answer_a[DSR_ANSWER_NUMBERS], answer_b[DSR_ANSWER_NUMBERS];
static size_t image_len;
static volatile uint32_t sink;

static void run_library_read(void) {
    uint64_t place = 0;
    sink = dsr_read(image, image_len, ASKED, codebook, CODEBOOK_NUMBERS, thresholds, THRESHOLD_NUMBERS, index_a, sizeof index_a,
                    report_a, sizeof report_a, answer_a, DSR_ANSWER_NUMBERS, &place);
}

static void run_literal_read(void) {
    uint64_t place = 0;
    sink = literal_read(image, image_len, ASKED, codebook, CODEBOOK_NUMBERS, thresholds, THRESHOLD_NUMBERS, index_b, sizeof index_b,
                        report_b, sizeof report_b, answer_b, &place);
}

static uint8_t *header_of(unsigned k) { return image + MULTIFRAME_OCTETS * (size_t)k + SYNC_OCTETS; }

static void flip_header(unsigned k, unsigned count) {
    uint32_t flips = 0;
    while ((unsigned)__builtin_popcount(flips) < count) flips |= 1u << chance() % 32;
    for (unsigned i = 0; i < HEADER_OCTETS; i++) header_of(k)[i] ^= (uint8_t)(flips >> (8 * i));
}

static void clean(unsigned m) { (void)m; }

/* An only header has to be a codeword, or the settings would not settle. */
static void damaged(unsigned m) {
    for (unsigned k = 0; k < m; k++) {
        if (m > 1) flip_header(k, 2);
        for (unsigned p = 0; p < PAIRS; p += 4) {
            size_t bit = PACKET_BITS * p + chance() % PACKET_BITS;
            header_of(k)[HEADER_OCTETS + bit / 8] ^= (uint8_t)(1 << bit % 8);
        }
    }
}

/* The first and the last stay. */
static void lost(unsigned m) {
    for (unsigned k = 1; k + 1 < m; k++) flip_header(k, 3);
}

static void read_row(const char *what, unsigned m, double target, void (*damage)(unsigned), uint64_t bad) {
    char name[80];
    uint64_t octets = 0;
    image_len = MULTIFRAME_OCTETS * (size_t)m;
    literal_write(3, 1, indices, FRAME_INDICES * (FRAMES * (size_t)m - 1), image, sizeof image, &octets);
    damage(m);
    memset(index_a, 0, sizeof index_a), memset(index_b, 0, sizeof index_b);
    memset(report_a, 0, sizeof report_a), memset(report_b, 0, sizeof report_b);
    run_library_read();
    uint32_t a = sink;
    run_literal_read();
    uint32_t b = sink;
    uint32_t done = 0;
    same("not read", &b, &done, sizeof b);
    same("answer", &a, &b, sizeof a);
    same("numbers", answer_a, answer_b, sizeof answer_a);
    same("index", index_a, index_b, sizeof index_a);
    same("report", report_a, report_b, sizeof report_a);
    same("number of bad pairs", &answer_b[DSR_ANSWER_BAD], &bad, sizeof bad);
    snprintf(name, sizeof name, "%s, ns a multiframe of %u", what, m);
    row(name, target, m, run_library_read, run_literal_read);
}

int main(int argc, char **argv) {
    for (unsigned f = 0; f < MOST_FRAMES; f++) speech_frame(indices + FRAME_INDICES * f);
    for (unsigned i = 0; i < CODEBOOK_NUMBERS; i++) codebook[i] = (int32_t)(chance() % 1000);
    for (unsigned i = 0; i < THRESHOLD_NUMBERS; i++) thresholds[i] = 1000;
    bench_start(argc, argv, "read");
    read_row("clean", 1, 0, clean, 0);
    read_row("clean", 64, 0, clean, 0);
    read_row("clean", MOST_MULTIFRAMES, 8, clean, 0);
    read_row("two flips, a quarter bad", 1, 0, damaged, 3);
    read_row("two flips, a quarter bad", 64, 0, damaged, 3 * 64);
    read_row("two flips, a quarter bad", MOST_MULTIFRAMES, 6, damaged, 3 * MOST_MULTIFRAMES);
    read_row("all headers lost but two", 3, 0, lost, 0);
    read_row("all headers lost but two", 64, 0, lost, 0);
    read_row("all headers lost but two", MOST_MULTIFRAMES, 6, lost, 0);
    return bench_end();
}
