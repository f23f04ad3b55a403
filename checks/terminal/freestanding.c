/* The writer alone on a bare machine: no C library, no start-up code. It writes one utterance of a frame and ends with 0 if the image
 * begins and ends as it has to, else with 1. memset is all that the writer wants from outside. */
#include "dsr.h"

void *memset(void *memory, int octet, size_t n) {
    volatile uint8_t *at = (volatile uint8_t *)memory; /* volatile, so that the compiler makes no call of memset of this loop */
    for (size_t i = 0; i < n; i++) at[i] = (uint8_t)octet;
    return memory;
}

__attribute__((noreturn)) static void end(long status) {
#if defined __x86_64__
    __asm__ volatile("syscall" : : "a"(60L), "D"(status));
#else
    register long number __asm__("x8") = 93, word __asm__("x0") = status;
    __asm__ volatile("svc 0" : : "r"(number), "r"(word));
#endif
    __builtin_unreachable();
}

static long wrong(void) {
    static const uint8_t frame[DSR_FRAME_INDICES] = {5, 12, 63, 0, 7, 9, 255};
    static uint8_t image[DSR_MULTIFRAME_OCTETS + 1];
    uint64_t place = 0;
    if (dsr_write(DSR_RATE_8_KHZ, DSR_STANDARD, frame, sizeof frame, image, sizeof image, &place) != DSR_DONE) return 1;
    if (place != DSR_MULTIFRAME_OCTETS || image[0] != 0x87 || image[1] != 0xb2) return 1;
    return image[6] != (5 | (12 & 3) << 6) || image[DSR_MULTIFRAME_OCTETS - 1] != 0 || image[DSR_MULTIFRAME_OCTETS] != 0;
}

/* It is entered by a call, so that its stack is aligned as a function's is. */
void start(void);
void start(void) { end(wrong()); }

__asm__(".global _start\n_start:\n"
#if defined __x86_64__
        "    call start\n"
#else
        "    bl start\n"
#endif
);
