/* Drives dsr_hunt and dsr_read_bits.
 *   'H', mode, from, least, before (64 bits each), octets, found, tested, place  ->  number, kept, found, tested, place
 *   'B', mode, from, least, before, octets, choices, codebook, thresholds, index, report, answer, place
 *        ->  number, kept, place, answer, index, report
 * `before` is how many zero octets stand before the given ones: so bits beyond 32 bits in number can be lent. A slice is a length of
 * 32 bits and its elements; choices is one number of 64 bits, and found, tested and place are one each, what is lent for it. */
#include "../../c/dsr.h"
#include "drive.h"

static struct {
    struct lent octets, codebook, thresholds, index, report, answer, found, tested, place;
} lend;

struct search {
    uint64_t from, least, before;
    const uint8_t *octets;
    size_t octets_len;
    uint8_t *wide;
};

static struct search take_search(int mode) {
    struct search s = {.from = take_64()};
    s.least = take_64();
    s.before = take_64();
    take_slice(&lend.octets, mode, 1);
    s.octets = lend.octets.data;
    s.octets_len = s.before + lend.octets.len;
    if (s.before != 0) {
        s.octets = s.wide = wide_slice(s.octets_len, PROT_READ | PROT_WRITE);
        memcpy(s.wide + s.before, lend.octets.data, lend.octets.len);
    }
    return s;
}

static int search_kept(const struct search *s) {
    int kept = all_kept(&lend.octets);
    if (s->wide != NULL) {
        kept = kept && memcmp(s->wide + s->before, lend.octets.data, lend.octets.len) == 0;
        munmap(s->wide, s->octets_len);
    }
    return kept;
}

static void hunt(int mode) {
    struct search s = take_search(mode);
    take_number(&lend.found, mode);
    take_number(&lend.tested, mode);
    take_number(&lend.place, mode);
    uint32_t number = dsr_hunt(s.octets, s.octets_len, s.from, s.least, number_of(&lend.found), number_of(&lend.tested),
                               number_of(&lend.place));
    int kept = search_kept(&s) && margin_kept(&lend.found) && margin_kept(&lend.tested) && margin_kept(&lend.place);
    give_32(number);
    give_32((uint32_t)kept);
    give_64(*number_of(&lend.found));
    give_64(*number_of(&lend.tested));
    give_64(*number_of(&lend.place));
}

static uint32_t call_read_bits(const struct search *s, uint64_t choices) {
    return dsr_read_bits(s->octets, s->octets_len, s->from, s->least, choices, (const int32_t *)lend.codebook.data,
                         lend.codebook.len / sizeof(int32_t), (const int32_t *)lend.thresholds.data,
                         lend.thresholds.len / sizeof(int32_t), lend.index.data, lend.index.len, lend.report.data, lend.report.len,
                         number_of(&lend.answer), lend.answer.len / sizeof(uint64_t), number_of(&lend.place));
}

static void read_bits(int mode) {
    struct search s = take_search(mode);
    uint64_t choices = take_64();
    take_slice(&lend.codebook, mode, sizeof(int32_t));
    take_slice(&lend.thresholds, mode, sizeof(int32_t));
    take_slice(&lend.index, mode, 1);
    take_slice(&lend.report, mode, 1);
    take_slice(&lend.answer, mode, sizeof(uint64_t));
    take_number(&lend.place, mode);
    uint32_t number = call_read_bits(&s, choices);
    int kept = search_kept(&s) && all_kept(&lend.codebook) && all_kept(&lend.thresholds) && margin_kept(&lend.index)
               && margin_kept(&lend.report) && margin_kept(&lend.answer) && margin_kept(&lend.place);
    give_32(number);
    give_32((uint32_t)kept);
    give_64(*number_of(&lend.place));
    give(lend.answer.data, lend.answer.len);
    give(lend.index.data, lend.index.len);
    give(lend.report.data, lend.report.len);
}

int main(void) {
    struct lent *all[] = {&lend.octets, &lend.codebook, &lend.thresholds, &lend.index, &lend.report,
                          &lend.answer, &lend.found, &lend.tested, &lend.place};
    for (size_t i = 0; i < sizeof all / sizeof *all; i++) *all[i] = arena();
    for (;;) {
        int kind = next_call();
        int mode = take_8();
        if (kind == 'H') hunt(mode);
        else if (kind == 'B') read_bits(mode);
        else fail("unknown call");
    }
}
