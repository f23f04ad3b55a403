/* Times the library against the literal C version in one run: both do the same call by turns, many times, and the best time of each
 * counts. A row says the time of both, the ratio, the target of its issue and whether it is met. A row of the other form holds two calls
 * of the library against each other, and its ratio has to stay below the bound. */
#ifndef BENCH_H
#define BENCH_H

#include <stdint.h>
#include <stdio.h>
#include <stdlib.h>
#include <string.h>
#include <time.h>

enum { REPEATS = 300, BATCH_NS = 50000 };

typedef void (*work)(void);

/* Why a ratio of this run says nothing about the target; NULL if it does. */
static const char *not_judged;
static int missed;

static inline void heading(const char *part, const char *first, const char *second, const char *bound) {
    printf("%-46s %12s %12s %8s %8s\n", part, first, second, "ratio", bound);
}

static inline void bench_start(int argc, char **argv, const char *part) {
    not_judged = argc > 1 ? argv[1] : NULL;
    heading(part, "library ns", "literal ns", "target");
}

static inline double now_ns(void) {
    struct timespec t;
    clock_gettime(CLOCK_MONOTONIC, &t);
    return 1e9 * (double)t.tv_sec + (double)t.tv_nsec;
}

static inline double time_of(work call, unsigned calls) {
    double start = now_ns();
    for (unsigned i = 0; i < calls; i++) call();
    return (now_ns() - start) / calls;
}

/* How many calls make a batch that the clock can measure. */
static inline unsigned batch(work call) {
    unsigned calls = 1;
    while (calls < 1u << 20 && time_of(call, calls) * calls < BATCH_NS) calls *= 2;
    return calls;
}

struct times {
    double first, second;
};

/* The best time of one call of each, by turns. */
static inline struct times best_times(work first, work second) {
    unsigned first_calls = batch(first), second_calls = batch(second);
    struct times best = {1e18, 1e18};
    for (unsigned r = 0; r < REPEATS; r++) {
        double a = time_of(first, first_calls), b = time_of(second, second_calls);
        if (a < best.first) best.first = a;
        if (b < best.second) best.second = b;
    }
    return best;
}

/* Both times for one unit, the ratio, its bound and the verdict. A bound of 0 means that the row is only shown. */
static inline void print_row(const char *name, struct times t, unsigned units, double ratio, double bound, int met) {
    printf("%-46s %12.2f %12.2f %8.2f ", name, t.first / units, t.second / units, ratio);
    if (bound == 0) printf("%8s shown\n", "-");
    else if (not_judged != NULL) printf("%8.1f not judged: %s\n", bound, not_judged);
    else {
        printf("%8.1f %s\n", bound, met ? "met" : "MISSED");
        missed += !met;
    }
    fflush(stdout);
}

/* How many times as fast the library is: at least the target. `units` is what one call does: times are for one unit. */
static inline void row(const char *name, double target, unsigned units, work library, work literal) {
    struct times t = best_times(library, literal);
    double ratio = t.second / t.first;
    print_row(name, t, units, ratio, target, ratio >= target);
}

/* How many times as long one call of the library takes as another that does less: at most the bound. */
static inline void row_at_most(const char *name, double bound, unsigned units, work longer, work shorter) {
    struct times t = best_times(longer, shorter);
    double ratio = t.first / t.second;
    print_row(name, t, units, ratio, bound, ratio <= bound);
}

static inline int bench_end(void) { return missed != 0; }

/* Both versions must do the same before their times are worth comparing. */
static inline void same(const char *what, const void *a, const void *b, size_t len) {
    if (memcmp(a, b, len) == 0) return;
    fprintf(stderr, "bench: library and literal version differ: %s\n", what);
    exit(2);
}

static inline uint32_t chance(void) {
    static uint64_t state = 201108;
    state = state * 6364136223846793005u + 1442695040888963407u;
    return (uint32_t)(state >> 33);
}

/* A frame whose indices fit and that is not zero. */
static inline void speech_frame(uint8_t *frame) {
    for (unsigned i = 0; i < 7; i++) frame[i] = (uint8_t)(chance() % (i < 6 ? 64 : 256));
    frame[0] |= 1;
}

#endif
