/* Drives dsr_header_encode and dsr_header_read.
 *   'E', count, words of 32 bits (messages)  ->  the codewords
 *   'R', mode, message, flips (32 bits each, what is lent), count, words of 32 bits
 *        ->  for each word: answer, kept, message, flips, 32 bits each */
#include "../../c/dsr.h"
#include "drive.h"

static struct lent lent_message, lent_flips;

struct words {
    uint32_t count, *all;
};

static struct words take_words(void) {
    struct words w = {take_32(), NULL};
    w.all = malloc(4 * (size_t)w.count + 4);
    if (w.all == NULL) fail("no memory");
    for (uint32_t i = 0; i < w.count; i++) w.all[i] = take_32();
    return w;
}

static void read_one(int mode, uint16_t message, uint32_t flips, uint32_t word) {
    lend_number(&lent_message, mode, &message, sizeof message);
    lend_number(&lent_flips, mode, &flips, sizeof flips);
    uint32_t answer = dsr_header_read(word, (uint16_t *)lent_message.data, (uint32_t *)lent_flips.data);
    give_32(answer);
    give_32((uint32_t)(margin_kept(&lent_message) && margin_kept(&lent_flips)));
    give_32(*(uint16_t *)lent_message.data);
    give_32(*(uint32_t *)lent_flips.data);
}

static void encode_all(void) {
    struct words w = take_words();
    for (uint32_t i = 0; i < w.count; i++) give_32(dsr_header_encode((uint16_t)w.all[i]));
    free(w.all);
}

static void read_all(void) {
    int mode = take_8();
    uint16_t message = (uint16_t)take_32();
    uint32_t flips = take_32();
    struct words w = take_words();
    for (uint32_t i = 0; i < w.count; i++) read_one(mode, message, flips, w.all[i]);
    free(w.all);
}

int main(void) {
    lent_message = arena();
    lent_flips = arena();
    for (;;) {
        int kind = next_call();
        if (kind == 'E') encode_all();
        else if (kind == 'R') read_all();
        else fail("unknown call");
    }
}
