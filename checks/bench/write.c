/* Issue 4: writing 6,119 frames at least 10 times as fast; 1 and 64 multiframes beside it, to show that time is linear. */
#include "../literal/literal.h"
#include "../../c/dsr.h"
#include "bench.h"

static uint8_t indices[FRAME_INDICES * MOST_FRAMES], out[MULTIFRAME_OCTETS * MOST_MULTIFRAMES], other[sizeof out];
static size_t indices_len;
static volatile uint64_t sink;

static void run_library_write(void) {
    uint64_t place = 0;
    sink = dsr_write(3, 1, indices, indices_len, out, sizeof out, &place) + place;
}

static void run_literal_write(void) {
    uint64_t place = 0;
    sink = literal_write(3, 1, indices, indices_len, other, sizeof other, &place) + place;
}

static void write_row(unsigned m, double target) {
    char name[80];
    indices_len = FRAME_INDICES * (FRAMES * (size_t)m - 1);
    run_library_write();
    uint64_t a = sink;
    run_literal_write();
    uint64_t b = sink;
    same("answer", &a, &b, sizeof a);
    same("image", out, other, sizeof out);
    snprintf(name, sizeof name, "%u frames, ns a multiframe of %u", FRAMES * m - 1, m);
    row(name, target, m, run_library_write, run_literal_write);
}

int main(int argc, char **argv) {
    for (unsigned f = 0; f < MOST_FRAMES; f++) speech_frame(indices + FRAME_INDICES * f);
    bench_start(argc, argv, "write");
    write_row(1, 0);
    write_row(64, 0);
    write_row(MOST_MULTIFRAMES, 10);
    return bench_end();
}
