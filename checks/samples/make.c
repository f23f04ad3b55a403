/* Makes the shipped sample, crates/dsrlist/stdin: an utterance of 60 frames at 8 kHz (three multiframes), as a bad radio link would
 * deliver it. Each damage is of a kind that the reader is proved to see, so the listing names all of it. */
#include <stdio.h>
#include <string.h>

#include "../../c/dsr.h"

enum { FRAMES = 60, MULTIFRAMES = FRAMES / 24 + 1, SYNC_OCTETS = 2, HEADER_OCTETS = 4, PACKET_BITS = 92 };

static void flip(uint8_t *octets, unsigned bit) { octets[bit / 8] ^= (uint8_t)(1u << bit % 8); }

static void send(const uint8_t *octets, size_t len) { fwrite(octets, 1, len, stdout); }

int main(void) {
    static const uint8_t inverse_sync[2] = {0x78, 0x4D};
    uint8_t indices[FRAMES * DSR_FRAME_INDICES], image[MULTIFRAMES * DSR_MULTIFRAME_OCTETS];
    uint64_t octets = 0;
    for (unsigned i = 0; i < sizeof indices; i++) indices[i] = (uint8_t)(1 + 37 * i % 61);
    if (dsr_write(0, 0, indices, sizeof indices, image, sizeof image, &octets) != DSR_DONE || octets != sizeof image) return 1;

    uint8_t *second = image + DSR_MULTIFRAME_OCTETS, *third = second + DSR_MULTIFRAME_OCTETS;
    /* Two flips in the second header. The first would make 11 kHz of 8 kHz. */
    flip(second + SYNC_OCTETS, 0);
    flip(second + SYNC_OCTETS, 20);
    /* A burst in the third multiframe's second pair: three flips inside four neighbouring bits. */
    uint8_t *stream = third + SYNC_OCTETS + HEADER_OCTETS;
    for (unsigned bit = 40; bit < 44; bit++)
        if (bit != 41) flip(stream, PACKET_BITS + bit);

    send(image, DSR_MULTIFRAME_OCTETS);
    /* An inverse sync, which the link may send between multiframes. */
    send(inverse_sync, sizeof inverse_sync);
    send(second, 2 * DSR_MULTIFRAME_OCTETS);
    return fflush(stdout) != 0;
}
