/* Drives dsr_settle, and dsr_read beside it.
 *   'S', mode, choices, unseen (64 bits each), octets, answer, place  ->  number, kept, place, answer
 *   'L', choices, before (64 bits each), octets, place  ->  number, place, three numbers of the answer (64 bits each)
 *   'F', choices (64 bits), octets  ->  what dsr_read says with room for all and tables of zeros: number, place, rate, type
 * In 'S' the length lent is that of the octets and `unseen` more, and if there are any, they are memory that nobody may touch: to look at
 * one of them ends the driver. In 'L' `before` octets of inverse syncs stand before the given octets.
 * A slice is a length of 32 bits and its elements; answer is a slice of numbers of 64 bits; choices and place are one such number
 * each. */
#include "wide.h"

#include "../../c/dsr.h"

static struct {
    struct lent octets, answer, place;
} lend;

/* Octets with `unseen` octets behind them that nobody may touch. */
struct fenced {
    uint8_t *all, *octets;
    size_t len;
};

static struct fenced fence(const struct lent *octets, uint64_t unseen) {
    size_t page = (size_t)sysconf(_SC_PAGESIZE), front = (octets->len + page) / page * page;
    struct fenced f = {NULL, NULL, front + unseen + page};
    f.all = wide_slice(f.len, PROT_NONE);
    if (mprotect(f.all, front, PROT_READ | PROT_WRITE) != 0) fail("no memory");
    f.octets = f.all + front - octets->len;
    memcpy(f.octets, octets->data, octets->len);
    return f;
}

static uint32_t call_settle(const uint8_t *octets, size_t len, uint64_t choices) {
    return dsr_settle(octets, len, choices, number_of(&lend.answer), lend.answer.len / sizeof(uint64_t), number_of(&lend.place));
}

static uint32_t settle_fenced(uint64_t choices, uint64_t unseen, int *kept) {
    struct fenced f = fence(&lend.octets, unseen);
    uint32_t number = call_settle(f.octets, lend.octets.len + unseen, choices);
    *kept = memcmp(f.octets, lend.octets.data, lend.octets.len) == 0;
    munmap(f.all, f.len);
    return number;
}

static void settle(void) {
    int mode = take_8(), kept = 1;
    uint64_t choices = take_64(), unseen = take_64();
    take_slice(&lend.octets, mode, 1);
    take_slice(&lend.answer, mode, sizeof(uint64_t));
    take_number(&lend.place, mode);
    uint32_t number = unseen == 0 ? call_settle(lend.octets.data, lend.octets.len, choices) : settle_fenced(choices, unseen, &kept);
    kept = kept && all_kept(&lend.octets) && margin_kept(&lend.answer) && margin_kept(&lend.place);
    give_32(number);
    give_32((uint32_t)kept);
    give_64(*number_of(&lend.place));
    give(lend.answer.data, lend.answer.len);
}

static void settle_wide(void) {
    uint64_t choices = take_64(), before = take_64(), answer[DSR_SETTLE_ANSWER_NUMBERS] = {0};
    take_slice(&lend.octets, 0, 1);
    uint64_t place = take_64();
    uint8_t *octets = behind_inverse_syncs(before, &lend.octets);
    give_32(dsr_settle(octets, before + lend.octets.len, choices, answer, DSR_SETTLE_ANSWER_NUMBERS, &place));
    give_64(place);
    for (unsigned i = 0; i < DSR_SETTLE_ANSWER_NUMBERS; i++) give_64(answer[i]);
    munmap(octets, before + lend.octets.len + 1);
}

static void read_fully(void) {
    static const int32_t codebook[DSR_CODEBOOK_NUMBERS], thresholds[DSR_THRESHOLD_NUMBERS];
    static uint8_t index[DSR_MULTIFRAME_INDICES * DSR_MOST_MULTIFRAMES], report[DSR_MULTIFRAME_REPORT * DSR_MOST_MULTIFRAMES];
    uint64_t choices = take_64(), place = 0, answer[DSR_ANSWER_NUMBERS] = {DSR_RATE_NONE};
    take_slice(&lend.octets, 0, 1);
    give_32(dsr_read(lend.octets.data, lend.octets.len, choices, codebook, DSR_CODEBOOK_NUMBERS, thresholds, DSR_THRESHOLD_NUMBERS, index,
                     sizeof index, report, sizeof report, answer, DSR_ANSWER_NUMBERS, &place));
    give_64(place);
    give_64(answer[DSR_ANSWER_RATE]);
    give_64(answer[DSR_ANSWER_TYPE]);
}

int main(void) {
    lend.octets = arena();
    lend.answer = arena();
    lend.place = arena();
    for (;;) {
        int kind = next_call();
        if (kind == 'S') settle();
        else if (kind == 'L') settle_wide();
        else if (kind == 'F') read_fully();
        else fail("unknown call");
    }
}
