/* C-11: two headers that agree settle in a time that does not grow with what stands behind them: with 64 and with 255 multiframes at most
 * 1.2 times the time with 2. Against the literal version the time is that of reading headers, and so are the targets: clean ones at least
 * as fast, as a clean header has to be; with two flips each, or all lost but two of 255, at least 6 times, as readings of such have to be. */
#include "../literal/literal.h"
#include "../../c/dsr.h"
#include "bench.h"

static uint8_t indices[FRAME_INDICES * MOST_FRAMES], image[MULTIFRAME_OCTETS * MOST_MULTIFRAMES];
static uint8_t index_octets[INDEX_OCTETS * MOST_MULTIFRAMES], report[REPORT_OCTETS * MOST_MULTIFRAMES];
static int32_t codebook[CODEBOOK_NUMBERS], thresholds[THRESHOLD_NUMBERS];
static uint64_t answer_a[DSR_SETTLE_ANSWER_NUMBERS], answer_b[DSR_SETTLE_ANSWER_NUMBERS], answer_full[DSR_ANSWER_NUMBERS];
static size_t image_len;
static volatile uint32_t sink;

static void library_settle(size_t len) {
    uint64_t place = 0;
    sink = dsr_settle(image, len, DSR_DEFAULT_CHOICES, answer_a, DSR_SETTLE_ANSWER_NUMBERS, &place);
}

static void run_library(void) { library_settle(image_len); }
static void run_library_2(void) { library_settle(MULTIFRAME_OCTETS * 2); }
static void run_library_64(void) { library_settle(MULTIFRAME_OCTETS * 64); }
static void run_library_255(void) { library_settle(MULTIFRAME_OCTETS * 255); }

static void run_literal(void) {
    uint64_t place = 0;
    sink = literal_settle(image, image_len, 0, answer_b, &place);
}

static void run_full_reading(void) {
    uint64_t place = 0;
    sink = dsr_read(image, sizeof image, DSR_DEFAULT_CHOICES, codebook, CODEBOOK_NUMBERS, thresholds, THRESHOLD_NUMBERS, index_octets,
                    sizeof index_octets, report, sizeof report, answer_full, DSR_ANSWER_NUMBERS, &place);
}

static uint8_t *header_of(unsigned k) { return image + MULTIFRAME_OCTETS * (size_t)k + SYNC_OCTETS; }

static void flip_header(unsigned k, unsigned count) {
    uint32_t flips = 0;
    while ((unsigned)__builtin_popcount(flips) < count) flips |= 1u << chance() % 32;
    for (unsigned i = 0; i < HEADER_OCTETS; i++) header_of(k)[i] ^= (uint8_t)(flips >> (8 * i));
}

static void clean(unsigned m) { (void)m; }

static void two_flips(unsigned m) {
    for (unsigned k = 0; k < m; k++) flip_header(k, 2);
}

/* The first and the last stay. */
static void lost(unsigned m) {
    for (unsigned k = 1; k + 1 < m; k++) flip_header(k, 3);
}

/* Every header but the first and the last has settings that no other has. */
static void strange(unsigned m) {
    for (unsigned k = 1; k + 1 < m; k++) {
        uint32_t word = literal_header_encode((uint16_t)(k << 7));
        for (unsigned i = 0; i < HEADER_OCTETS; i++) header_of(k)[i] = (uint8_t)(word >> (8 * i));
    }
}

/* An image of m multiframes, of which `read` are needed; the time is for one of these. */
static void settle_row(const char *what, unsigned m, unsigned read, double target, void (*damage)(unsigned)) {
    char name[80];
    uint64_t octets = 0, multiframes = read;
    uint32_t done = 0;
    image_len = MULTIFRAME_OCTETS * (size_t)m;
    literal_write(3, 1, indices, FRAME_INDICES * (FRAMES * (size_t)m - 1), image, sizeof image, &octets);
    damage(m);
    run_library();
    uint32_t a = sink;
    run_literal();
    uint32_t b = sink;
    same("not settled", &b, &done, sizeof b);
    same("number", &a, &b, sizeof a);
    same("answer", answer_a, answer_b, sizeof answer_a);
    same("multiframes read", &answer_b[DSR_ANSWER_MULTIFRAMES], &multiframes, sizeof multiframes);
    snprintf(name, sizeof name, "%s, ns a header of %u", what, read);
    row(name, target, read, run_library, run_literal);
}

int main(int argc, char **argv) {
    for (unsigned f = 0; f < MOST_FRAMES; f++) speech_frame(indices + FRAME_INDICES * f);
    bench_start(argc, argv, "settle");
    settle_row("two flips each", 2, 2, 6, two_flips);
    settle_row("all headers lost but two", MOST_MULTIFRAMES, MOST_MULTIFRAMES, 6, lost);
    settle_row("other settings but two", MOST_MULTIFRAMES, MOST_MULTIFRAMES, 0, strange);
    settle_row("clean", 2, 2, 1, clean);
    settle_row("clean, of 255 multiframes", MOST_MULTIFRAMES, 2, 0, clean);
    heading("settled by two headers", "longer ns", "shorter ns", "at most");
    row_at_most("settled with 64 multiframes against with 2", 1.2, 1, run_library_64, run_library_2);
    row_at_most("settled with 255 multiframes against with 2", 1.2, 1, run_library_255, run_library_2);
    run_full_reading();
    same("settings of the full reading", answer_full, answer_a, sizeof *answer_a * DSR_ANSWER_MULTIFRAMES);
    row_at_most("255 read in full against settled", 0, 1, run_full_reading, run_library_255);
    return bench_end();
}
