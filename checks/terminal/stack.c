/* How much stack the library's functions use: each runs on a stack of its own that was painted before, and the lowest octet that lost
 * its paint counts, from the caller's frame on. The longest utterance is written, damaged, read, and settled by its last header. A function
 * that uses more than it is allowed ends this with 1. */
#include <stdio.h>
#include <stdlib.h>
#include <string.h>
#include <ucontext.h>

#include "dsr.h"

enum { STACK_OCTETS = 1 << 18, FRAMES = DSR_MOST_FRAMES, IMAGE = DSR_MOST_MULTIFRAMES * DSR_MULTIFRAME_OCTETS };

static uint8_t stack[STACK_OCTETS] __attribute__((aligned(64)));
static uint8_t indices[FRAMES * DSR_FRAME_INDICES], image[IMAGE], sent[IMAGE], late[IMAGE];
static uint8_t index_octets[DSR_MOST_MULTIFRAMES * DSR_MULTIFRAME_INDICES], report[DSR_MOST_MULTIFRAMES * DSR_MULTIFRAME_REPORT];
static int32_t codebook[DSR_CODEBOOK_NUMBERS], thresholds[DSR_THRESHOLD_NUMBERS];
static uint64_t answer[DSR_BITS_ANSWER_NUMBERS], place, found, tested;
static uint32_t status;
static ucontext_t outside, inside;
static uint8_t *called_from;
static void (*call)(void);

static void write_all(void) { status = dsr_write(DSR_RATE_8_KHZ, DSR_STANDARD, indices, sizeof indices, sent, sizeof sent, &place); }

static void read_all(void) {
    status = dsr_read(image, sizeof image, DSR_DEFAULT_CHOICES, codebook, DSR_CODEBOOK_NUMBERS, thresholds, DSR_THRESHOLD_NUMBERS,
                      index_octets, sizeof index_octets, report, sizeof report, answer, DSR_ANSWER_NUMBERS, &place);
}

static void settle(void) { status = dsr_settle(late, sizeof late, DSR_DEFAULT_CHOICES, answer, DSR_SETTLE_ANSWER_NUMBERS, &place); }

static void read_bits(void) {
    status = dsr_read_bits(image, sizeof image, 0, DSR_LEAST_MATCH, DSR_DEFAULT_CHOICES, codebook, DSR_CODEBOOK_NUMBERS, thresholds,
                           DSR_THRESHOLD_NUMBERS, index_octets, sizeof index_octets, report, sizeof report, answer,
                           DSR_BITS_ANSWER_NUMBERS, &place);
}

static void hunt(void) { status = dsr_hunt(image, sizeof image, 1, DSR_LEAST_MATCH, &found, &tested, &place); }

static void run(void) {
    called_from = (uint8_t *)__builtin_frame_address(0);
    call();
}

static size_t used_with(void (*function)(void), uint8_t paint) {
    memset(stack, paint, sizeof stack);
    call = function;
    getcontext(&inside);
    inside.uc_stack.ss_sp = stack;
    inside.uc_stack.ss_size = sizeof stack;
    inside.uc_link = &outside;
    makecontext(&inside, run, 0);
    if (swapcontext(&outside, &inside) != 0 || status != DSR_DONE) {
        printf("the call did not succeed: %u\n", status);
        exit(1);
    }
    size_t lowest = 0;
    while (lowest < sizeof stack && stack[lowest] == paint) lowest++;
    return (size_t)(called_from - (stack + lowest));
}

/* Two paints: what a function writes may happen to be one of them. */
static size_t used_by(void (*function)(void)) {
    size_t first = used_with(function, 0xa5), second = used_with(function, 0x3c);
    return first > second ? first : second;
}

static int judge(const char *name, void (*function)(void), size_t allowed) {
    size_t used = used_by(function);
    printf("%-14s %6zu octets of stack, %6zu allowed%s\n", name, used, allowed, used > allowed ? ": TOO MUCH" : "");
    return used > allowed;
}

/* Flips in headers, and damage to pairs all over the image. */
static void damage(void) {
    memcpy(image, sent, sizeof image);
    for (size_t k = 0; k < DSR_MOST_MULTIFRAMES; k += 3) image[DSR_MULTIFRAME_OCTETS * k + 2] ^= 0x81;
    for (size_t at = 6; at < sizeof image; at += 7 * DSR_MULTIFRAME_OCTETS + 5) image[at % DSR_MULTIFRAME_OCTETS > 5 ? at : at + 6] ^= 1;
}

/* Settings of its own in each header but the first and the last. */
static void estrange(void) {
    memcpy(late, sent, sizeof late);
    for (uint32_t k = 1; k + 1 < DSR_MOST_MULTIFRAMES; k++) {
        uint32_t word = dsr_header_encode((uint16_t)(k << 7));
        for (unsigned i = 0; i < 4; i++) late[DSR_MULTIFRAME_OCTETS * k + 2 + i] = (uint8_t)(word >> 8 * i);
    }
}

int main(void) {
    int wrong = 0;
    for (size_t i = 0; i < sizeof indices; i++) indices[i] = (uint8_t)(i % 63 + 1);
    wrong |= judge("dsr_write", write_all, 512);
    damage();
    wrong |= judge("dsr_read", read_all, 8192);
    estrange();
    wrong |= judge("dsr_settle", settle, 2048);
    wrong |= answer[DSR_ANSWER_MULTIFRAMES] != DSR_MOST_MULTIFRAMES;
    wrong |= judge("dsr_hunt", hunt, 512);
    wrong |= judge("dsr_read_bits", read_bits, 36720 + 8192);
    return wrong;
}
