/* Drops what each function that can refuse returns: the compiler has to warn of every line. */
#include "../../c/dsr.h"

void drop_structs(struct dsr_writing *w, struct dsr_reading *r, struct dsr_settled *s, struct dsr_hunted *h);
void drop_numbers(uint8_t *octets, int32_t *tables, uint16_t *message, uint32_t *flips, uint64_t *answer);

void drop_structs(struct dsr_writing *w, struct dsr_reading *r, struct dsr_settled *s, struct dsr_hunted *h) {
    dsr_write_utterance(0, 0, NULL, 0, NULL, 0, w);
    dsr_read_utterance(NULL, 0, DSR_DEFAULT_CHOICES, NULL, NULL, 0, NULL, 0, r);
    dsr_settle_utterance(NULL, 0, DSR_DEFAULT_CHOICES, s);
    dsr_hunt_utterance(NULL, 0, 0, 14, DSR_DEFAULT_CHOICES, NULL, NULL, 0, NULL, 0, r);
    dsr_hunt_multiframe(NULL, 0, 0, 14, h);
}

void drop_numbers(uint8_t *octets, int32_t *tables, uint16_t *message, uint32_t *flips, uint64_t *answer) {
    dsr_header_read(0, message, flips);
    dsr_pack(octets, 0, octets, 0);
    dsr_unpack(octets, 0, octets, 0, octets, 0);
    dsr_write(0, 0, octets, 0, octets, 0, answer);
    dsr_read(octets, 0, DSR_DEFAULT_CHOICES, tables, 0, tables, 0, octets, 0, octets, 0, answer, 0, answer);
    dsr_settle(octets, 0, DSR_DEFAULT_CHOICES, answer, 0, answer);
    dsr_hunt(octets, 0, 0, 14, answer, answer, answer);
    dsr_read_bits(octets, 0, 0, 14, DSR_DEFAULT_CHOICES, tables, 0, tables, 0, octets, 0, octets, 0, answer, 0, answer);
}
