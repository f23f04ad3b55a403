/* C-13: a hunt through random bits at least 8 times as fast, whatever least number of sync bits has to match; reading 255 multiframes that
 * begin at bit 3 at least 6 times as fast, and at most 1.8 times as long as the octet reader takes for them. */
#include "../literal/literal.h"
#include "../../c/dsr.h"
#include "bench.h"

enum { RANDOM_OCTETS = 1 << 14, RANDOM_PLACES = 8 * RANDOM_OCTETS - MULTIFRAME_BITS + 1, SHIFT = 3, LEAST = 14 };

typedef uint32_t (*hunter)(const uint8_t *, size_t, uint64_t, uint64_t, uint64_t *, uint64_t *, uint64_t *);

/* What all hunts through the random bits give: how many places were found and tested, and the sum of those found. */
struct bag {
    uint64_t found, tested, sum;
};

static uint8_t random_octets[RANDOM_OCTETS];
static uint64_t least;
static struct bag run_library_bag, run_literal_bag;

/* Hunts on behind each place that fits, so that all places are tested. */
static struct bag hunt_through(hunter hunt) {
    struct bag bag = {0, 0, 0};
    uint64_t from = 0, found = 0, tested = 0, place = 0;
    while (hunt(random_octets, sizeof random_octets, from, least, &found, &tested, &place) == 0) {
        bag.found++;
        bag.tested += tested;
        bag.sum += found;
        from = found + 1;
    }
    bag.tested += tested;
    return bag;
}

static void run_library_hunt(void) { run_library_bag = hunt_through(dsr_hunt); }
static void run_literal_hunt(void) { run_literal_bag = hunt_through(literal_hunt); }

static void hunt_row(uint64_t match) {
    char name[80];
    uint64_t places = RANDOM_PLACES;
    least = match;
    run_library_hunt();
    run_literal_hunt();
    same("places found and tested", &run_library_bag, &run_literal_bag, sizeof run_library_bag);
    same("not all places were tested", &run_literal_bag.tested, &places, sizeof places);
    snprintf(name, sizeof name, "hunt through random bits, T = %u, ns a place", (unsigned)match);
    row(name, 8, RANDOM_PLACES, run_library_hunt, run_literal_hunt);
}

/* The row of one multiframe is of a reading that succeeds, as it always was: so all ask for the rule by which one header alone settles. For
 * more multiframes the rule changes nothing. */
enum { ASKED = DSR_ONE_HEADER_SETTLES };

static uint8_t indices[FRAME_INDICES * MOST_FRAMES], image[MULTIFRAME_OCTETS * MOST_MULTIFRAMES], shifted[sizeof image + 1];
static uint8_t index_a[INDEX_OCTETS * MOST_MULTIFRAMES], report_a[REPORT_OCTETS * MOST_MULTIFRAMES];
static uint8_t index_b[sizeof index_a], report_b[sizeof report_a];
static int32_t codebook[CODEBOOK_NUMBERS], thresholds[THRESHOLD_NUMBERS];
static uint64_t answer_a[DSR_BITS_ANSWER_NUMBERS], answer_b[DSR_BITS_ANSWER_NUMBERS];
static size_t image_len;
static volatile uint32_t sink;

static void run_library_read_bits(void) {
    uint64_t place = 0;
    sink = dsr_read_bits(shifted, image_len + 1, 0, LEAST, ASKED, codebook, CODEBOOK_NUMBERS, thresholds, THRESHOLD_NUMBERS, index_a,
                         sizeof index_a, report_a, sizeof report_a, answer_a, DSR_BITS_ANSWER_NUMBERS, &place);
}

static void run_literal_read_bits(void) {
    uint64_t place = 0;
    sink = literal_read_bits(shifted, image_len + 1, 0, LEAST, ASKED, codebook, CODEBOOK_NUMBERS, thresholds, THRESHOLD_NUMBERS, index_b,
                             sizeof index_b, report_b, sizeof report_b, answer_b, &place);
}

/* The octet reader on the same multiframes. */
static void run_library_read(void) {
    uint64_t place = 0;
    sink = dsr_read(image, image_len, ASKED, codebook, CODEBOOK_NUMBERS, thresholds, THRESHOLD_NUMBERS, index_b, sizeof index_b,
                    report_b, sizeof report_b, answer_b, DSR_ANSWER_NUMBERS, &place);
}

/* Writes m multiframes, and again from bit 3 on. */
static void make_images(unsigned m) {
    uint64_t octets = 0;
    image_len = MULTIFRAME_OCTETS * (size_t)m;
    literal_write(3, 1, indices, FRAME_INDICES * (FRAMES * (size_t)m - 1), image, sizeof image, &octets);
    memset(shifted, 0, sizeof shifted);
    for (size_t t = 0; t < 8 * image_len; t++) put_bit(shifted, t + SHIFT, get_bit(image, t));
}

/* Both gave what the octet reader gives, and the eight bits around the image are outside. */
static void compare_readings(void) {
    uint64_t outside = 8;
    same("numbers", answer_a, answer_b, sizeof answer_a);
    same("bits outside", &answer_a[DSR_ANSWER_OUTSIDE], &outside, sizeof outside);
    run_library_read();
    same("numbers of the octet reader", answer_a, answer_b, sizeof *answer_b * DSR_ANSWER_NUMBERS);
    same("index", index_a, index_b, sizeof index_a);
    same("report", report_a, report_b, sizeof report_a);
}

static void read_row(unsigned m, double target) {
    char name[80];
    uint32_t done = 0;
    make_images(m);
    memset(index_a, 0, sizeof index_a), memset(index_b, 0, sizeof index_b);
    memset(report_a, 0, sizeof report_a), memset(report_b, 0, sizeof report_b);
    run_library_read_bits();
    uint32_t a = sink;
    run_literal_read_bits();
    uint32_t b = sink;
    same("not read", &b, &done, sizeof b);
    same("answer", &a, &b, sizeof a);
    same("index", index_a, index_b, sizeof index_a);
    same("report", report_a, report_b, sizeof report_a);
    compare_readings();
    snprintf(name, sizeof name, "read at bit 3, ns a multiframe of %u", m);
    row(name, target, m, run_library_read_bits, run_literal_read_bits);
}

int main(int argc, char **argv) {
    for (unsigned f = 0; f < MOST_FRAMES; f++) speech_frame(indices + FRAME_INDICES * f);
    for (unsigned i = 0; i < CODEBOOK_NUMBERS; i++) codebook[i] = (int32_t)(chance() % 1000);
    for (unsigned i = 0; i < THRESHOLD_NUMBERS; i++) thresholds[i] = 1000;
    for (unsigned i = 0; i < RANDOM_OCTETS; i++) random_octets[i] = (uint8_t)chance();
    bench_start(argc, argv, "hunt");
    hunt_row(12);
    hunt_row(14);
    hunt_row(16);
    read_row(1, 0);
    read_row(64, 0);
    read_row(MOST_MULTIFRAMES, 6);
    heading("hunt against the octet reader", "at bit 3 ns", "octets ns", "at most");
    row_at_most("read at bit 3 against the octet reader, 255", 1.8, MOST_MULTIFRAMES, run_library_read_bits, run_library_read);
    return bench_end();
}
