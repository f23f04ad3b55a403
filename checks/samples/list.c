/* The listing of `dsrlist` by a C program over dsr_read: standard input up to 65,536 octets, all codebook numbers and thresholds 0, and one
 * header alone settles, as dsrlist asks by name (02, C-20). Linked with the literal C version it says what dsrlist has to print. */
#include <stdio.h>

#include "../../c/dsr.h"

enum { LIMIT = 65536 };

static uint8_t octets[LIMIT + 1];
static uint8_t frames[DSR_MOST_MULTIFRAMES * DSR_MULTIFRAME_INDICES], report[DSR_MOST_MULTIFRAMES * DSR_MULTIFRAME_REPORT];
static int32_t codebook[DSR_CODEBOOK_NUMBERS], thresholds[DSR_THRESHOLD_NUMBERS];

static void print_notes(const uint8_t *notes) {
    printf("%u ", notes[0]);
    for (unsigned p = 1; p <= DSR_MULTIFRAME_PAIRS; p++) printf("%u", notes[p]);
    printf("\n");
}

int main(void) {
    static const char *const names[DSR_ANSWER_NUMBERS] = {"rate", " type", " multiframes", " speech", " bad", " end"};
    uint64_t answer[DSR_ANSWER_NUMBERS] = {0}, place = 0;
    size_t len = fread(octets, 1, sizeof octets, stdin);
    if (len > LIMIT) {
        printf("too long\n");
        return 0;
    }
    uint32_t number = dsr_read(octets, len, DSR_ONE_HEADER_SETTLES, codebook, DSR_CODEBOOK_NUMBERS, thresholds, DSR_THRESHOLD_NUMBERS, frames,
                               sizeof frames, report, sizeof report, answer, DSR_ANSWER_NUMBERS, &place);
    if (number != DSR_DONE) {
        printf("refused %u %llu\n", number, (unsigned long long)place);
        return 0;
    }
    for (size_t k = 0; k < answer[DSR_ANSWER_MULTIFRAMES]; k++) print_notes(report + DSR_MULTIFRAME_REPORT * k);
    for (unsigned i = 0; i < DSR_ANSWER_NUMBERS; i++) printf("%s %llu", names[i], (unsigned long long)answer[i]);
    printf("\n");
    return 0;
}
