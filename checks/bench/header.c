/* Issue 2: a clean header at least as fast, two flips and lost at least 8 times as fast. Each time is the mean over 256 random words. */
#include "../literal/literal.h"
#include "../../c/dsr.h"
#include "bench.h"

enum { WORDS = 256 };

static uint32_t words[WORDS];
static volatile uint32_t sink;

static void run_library_encode(void) {
    uint32_t sum = 0;
    for (unsigned i = 0; i < WORDS; i++) sum += dsr_header_encode((uint16_t)words[i]);
    sink = sum;
}

static void run_literal_encode(void) {
    uint32_t sum = 0;
    for (unsigned i = 0; i < WORDS; i++) sum += literal_header_encode((uint16_t)words[i]);
    sink = sum;
}

static void run_library_read(void) {
    uint16_t message = 0;
    uint32_t flips = 0, sum = 0;
    for (unsigned i = 0; i < WORDS; i++) sum += (dsr_header_read(words[i], &message, &flips) == DSR_DONE) + message + flips;
    sink = sum;
}

static void run_literal_read(void) {
    uint16_t message = 0;
    uint32_t flips = 0, sum = 0;
    for (unsigned i = 0; i < WORDS; i++) sum += (uint32_t)literal_header_read(words[i], &message, &flips) + message + flips;
    sink = sum;
}

/* Random codewords with `count` flipped places; three flips are always lost. */
static void damage(unsigned count) {
    for (unsigned i = 0; i < WORDS; i++) {
        uint32_t flips = 0;
        while ((unsigned)__builtin_popcount(flips) < count) flips |= 1u << chance() % 32;
        words[i] = literal_header_encode((uint16_t)chance()) ^ flips;
    }
    run_library_read();
    uint32_t a = sink;
    run_literal_read();
    uint32_t b = sink;
    same("header reading", &a, &b, sizeof a);
}

int main(int argc, char **argv) {
    bench_start(argc, argv, "header, one word");
    damage(0);
    row("encode", 0, WORDS, run_library_encode, run_literal_encode);
    row("read, clean", 1, WORDS, run_library_read, run_literal_read);
    damage(1);
    row("read, one flip", 0, WORDS, run_library_read, run_literal_read);
    damage(2);
    row("read, two flips", 8, WORDS, run_library_read, run_literal_read);
    damage(3);
    row("read, lost", 8, WORDS, run_library_read, run_literal_read);
    return bench_end();
}
