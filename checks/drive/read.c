/* Drives dsr_read.
 *   'R', mode, choices, octets, codebook, thresholds, index, report, answer, place  ->  number, kept, place, answer, index, report
 *   'L', choices, before, lengths of codebook, thresholds, index, report and answer (64 bits each), octets, place
 *        ->  number, 1, place, multiframes of the answer, first index octet, first report octet (64 bits each)
 * In 'L' `before` octets of inverse syncs stand before the given octets, and all other memory is of zeros: so places and lengths beyond
 * 32 bits can be tried.
 * A slice is a length of 32 bits and its elements; answer is a slice of numbers of 64 bits; choices and place are one such number
 * each. */
#include "wide.h"

#include "../../c/dsr.h"

static struct {
    struct lent octets, codebook, thresholds, index, report, answer, place;
} lend;

static uint32_t call_read(const uint8_t *octets, size_t len, uint64_t choices) {
    return dsr_read(octets, len, choices, (const int32_t *)lend.codebook.data, lend.codebook.len / sizeof(int32_t),
                    (const int32_t *)lend.thresholds.data, lend.thresholds.len / sizeof(int32_t), lend.index.data, lend.index.len,
                    lend.report.data, lend.report.len, number_of(&lend.answer), lend.answer.len / sizeof(uint64_t),
                    number_of(&lend.place));
}

static void read_lent(void) {
    int mode = take_8();
    uint64_t choices = take_64();
    take_slice(&lend.octets, mode, 1);
    take_slice(&lend.codebook, mode, sizeof(int32_t));
    take_slice(&lend.thresholds, mode, sizeof(int32_t));
    take_slice(&lend.index, mode, 1);
    take_slice(&lend.report, mode, 1);
    take_slice(&lend.answer, mode, sizeof(uint64_t));
    take_number(&lend.place, mode);
    uint32_t number = call_read(lend.octets.data, lend.octets.len, choices);
    int kept = all_kept(&lend.octets) && all_kept(&lend.codebook) && all_kept(&lend.thresholds) && margin_kept(&lend.index)
               && margin_kept(&lend.report) && margin_kept(&lend.answer) && margin_kept(&lend.place);
    give_32(number);
    give_32((uint32_t)kept);
    give_64(*number_of(&lend.place));
    give(lend.answer.data, lend.answer.len);
    give(lend.index.data, lend.index.len);
    give(lend.report.data, lend.report.len);
}

static void read_wide(void) {
    enum { SLICES = 5 };
    static const size_t size[SLICES] = {sizeof(int32_t), sizeof(int32_t), 1, 1, sizeof(uint64_t)};
    uint64_t choices = take_64(), before = take_64(), len[SLICES];
    uint8_t *zeros[SLICES];
    for (unsigned i = 0; i < SLICES; i++) {
        len[i] = take_64();
        zeros[i] = wide_slice(size[i] * len[i] + 1, PROT_READ | PROT_WRITE);
    }
    take_slice(&lend.octets, 0, 1);
    uint64_t place = take_64();
    uint8_t *octets = behind_inverse_syncs(before, &lend.octets);
    uint64_t *answer = (uint64_t *)zeros[4];
    give_32(dsr_read(octets, before + lend.octets.len, choices, (const int32_t *)zeros[0], len[0], (const int32_t *)zeros[1], len[1],
                     zeros[2], len[2], zeros[3], len[3], answer, len[4], &place));
    give_32(1);
    give_64(place);
    give_64(answer[DSR_ANSWER_MULTIFRAMES]);
    give_64(zeros[2][0]);
    give_64(zeros[3][0]);
    munmap(octets, before + lend.octets.len + 1);
    for (unsigned i = 0; i < SLICES; i++) munmap(zeros[i], size[i] * len[i] + 1);
}

int main(void) {
    struct lent *all[] = {&lend.octets, &lend.codebook, &lend.thresholds, &lend.index, &lend.report, &lend.answer, &lend.place};
    for (size_t i = 0; i < sizeof all / sizeof *all; i++) *all[i] = arena();
    for (;;) {
        int kind = next_call();
        if (kind == 'R') read_lent();
        else if (kind == 'L') read_wide();
        else fail("unknown call");
    }
}
