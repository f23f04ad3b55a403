/* Writes an utterance of 30 frames, settles its rate and front end while it is still being recorded, reads it back and its first multiframe
 * alone, damages its image as a radio link would, and reads it again: by octets, and then as a modem gives it that knows no octet
 * boundary. */
#include <inttypes.h>
#include <stdio.h>

#include "dsr.h"

enum { FRAMES = 30, MULTIFRAMES = FRAMES / DSR_MULTIFRAME_FRAMES + 1, IDLE_BITS = 19, LEAST = 14 };

static uint8_t image[MULTIFRAMES * DSR_MULTIFRAME_OCTETS], modem[sizeof image + 4];
static uint8_t frames[MULTIFRAMES * DSR_MULTIFRAME_INDICES], report[MULTIFRAMES * DSR_MULTIFRAME_REPORT];
static struct dsr_tables tables; /* all zero here: lend your own */

static void print_refusal(enum dsr_status status, uint64_t place) {
    printf("refused %u %" PRIu64 ": %s\n", (unsigned)status, place, dsr_status_text(status));
}

static void print_notes(unsigned multiframes) {
    for (unsigned k = 0; k < multiframes; k++) {
        const uint8_t *notes = report + DSR_MULTIFRAME_REPORT * k;
        printf("%u ", notes[0]);
        for (unsigned p = 1; p <= DSR_MULTIFRAME_PAIRS; p++) printf("%u", notes[p]);
        printf("\n");
    }
}

static void read_and_print(size_t octets, uint64_t choices) {
    struct dsr_reading r;
    if (dsr_read_utterance(image, octets, choices, &tables, frames, sizeof frames, report, sizeof report, &r) != DSR_DONE) {
        print_refusal(r.status, r.place);
        return;
    }
    print_notes(r.multiframes);
    printf("rate %u type %u: speech %u bad %u end %u\n", r.rate, r.type, r.speech, r.bad, r.end);
}

/* What a dispatcher does with the octets that are recorded so far; refused, it waits for more. */
static void settle_and_print(size_t octets) {
    struct dsr_settled s;
    if (dsr_settle_utterance(image, octets, DSR_DEFAULT_CHOICES, &s) != DSR_DONE) print_refusal(s.status, s.place);
    else printf("rate %u type %u settled by %u multiframes\n", s.rate, s.type, s.multiframes);
}

/* The image behind idle bits, all zero, that end in the middle of an octet. */
static void send_through_modem(size_t octets) {
    for (size_t t = 0; t < 8 * octets; t++)
        modem[(IDLE_BITS + t) / 8] |= (uint8_t)((image[t / 8] >> t % 8 & 1) << (IDLE_BITS + t) % 8);
}

static void hunt_and_print(uint64_t from) {
    struct dsr_hunted h;
    if (dsr_hunt_multiframe(modem, sizeof modem, from, LEAST, &h) != DSR_DONE) print_refusal(h.status, h.place);
    else printf("found at bit %" PRIu64 ", %" PRIu64 " places tested\n", h.found, h.tested);
}

static void read_bits_and_print(void) {
    struct dsr_reading r;
    if (dsr_hunt_utterance(modem, sizeof modem, 0, LEAST, DSR_DEFAULT_CHOICES, &tables, frames, sizeof frames, report, sizeof report, &r) !=
        DSR_DONE) {
        print_refusal(r.status, r.place);
        return;
    }
    print_notes(r.multiframes);
    printf("rate %u type %u: speech %u bad %u end %u, %" PRIu64 " bits outside, %" PRIu64 " places tested\n", r.rate, r.type, r.speech,
           r.bad, r.end, r.outside, r.tested);
}

int main(void) {
    uint8_t indices[FRAMES * DSR_FRAME_INDICES];
    struct dsr_writing w;
    for (unsigned i = 0; i < sizeof indices; i++) indices[i] = (uint8_t)(i % 63 + 1);
    if (dsr_write_utterance(2, DSR_STANDARD, indices, sizeof indices, image, sizeof image, &w) != DSR_DONE)
        print_refusal(w.status, w.place); /* there is no rate 2 */
    if (dsr_write_utterance(DSR_RATE_11_KHZ, DSR_STANDARD, indices, sizeof indices, image, sizeof image, &w) != DSR_DONE) return 1;
    settle_and_print(DSR_MULTIFRAME_OCTETS); /* one header alone does not settle */
    settle_and_print(200); /* the second multiframe is still being recorded */
    settle_and_print(288); /* two headers agree: whatever is recorded behind them changes nothing */
    read_and_print(w.octets, DSR_DEFAULT_CHOICES);
    read_and_print(DSR_MULTIFRAME_OCTETS, DSR_DEFAULT_CHOICES); /* the first multiframe alone: no second header agrees with its own */
    read_and_print(DSR_MULTIFRAME_OCTETS, DSR_ONE_HEADER_SETTLES); /* asked for by name it is read: this line is known to be good */
    image[2] ^= 0x81; /* two flips in the first header, one of them in the rate: mended */
    image[6] ^= 0x01; /* one in its first pair: found, and the pair replaced */
    read_and_print(w.octets, DSR_DEFAULT_CHOICES);
    read_and_print(w.octets - 1, DSR_DEFAULT_CHOICES); /* the last multiframe is cut */
    image[1] ^= 0x10; /* one flip in the first sync: the octet reader refuses, the hunt does not mind */
    read_and_print(w.octets, DSR_DEFAULT_CHOICES);
    send_through_modem(w.octets);
    hunt_and_print(0);
    hunt_and_print(IDLE_BITS + 1); /* goes on behind the first */
    hunt_and_print(IDLE_BITS + DSR_MULTIFRAME_BITS + 1); /* no whole multiframe is left */
    read_bits_and_print();
    return 0;
}
