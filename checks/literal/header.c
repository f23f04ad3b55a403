/* The header code (01, "Parity" and "Headers"): P1 to P15 by the sixteen rows of matrix 6.2 as words, P1 least significant; P16 by the
 * number of ones, as 01 says it; and a search that encodes each of the 529 candidates: the word itself, each flipped bit, each two. */
#include "literal.h"

static const uint16_t parity_words[16] = {0x5101, 0x7303, 0x3707, 0x6E0E, 0x0D1D, 0x1A3A, 0x3474, 0x68E8,
                                          0x00D1, 0x01A2, 0x0344, 0x0688, 0x0D10, 0x1A20, 0x3440, 0x6880};

static inline uint32_t codeword(uint16_t message) {
    uint32_t parity = 0;
    for (unsigned i = 0; i < 16; i++)
        if (message >> i & 1) parity ^= parity_words[i];
    uint32_t front = message | parity << 16;
    return front | (uint32_t)(__builtin_popcount(front) & 1) << 31;
}

static inline int fits(uint32_t candidate) { return codeword((uint16_t)candidate) == candidate; }

uint32_t literal_header_encode(uint16_t message) { return codeword(message); }

static int found(uint32_t candidate, uint32_t count, uint16_t *message, uint32_t *flips) {
    *message = (uint16_t)candidate;
    *flips = count;
    return 1;
}

int literal_header_read(uint32_t word, uint16_t *message, uint32_t *flips) {
    if (fits(word)) return found(word, 0, message, flips);
    for (unsigned a = 0; a < 32; a++) {
        uint32_t one = word ^ 1u << a;
        if (fits(one)) return found(one, 1, message, flips);
    }
    for (unsigned a = 0; a < 32; a++)
        for (unsigned b = a + 1; b < 32; b++) {
            uint32_t two = word ^ 1u << a ^ 1u << b;
            if (fits(two)) return found(two, 2, message, flips);
        }
    return 0;
}
