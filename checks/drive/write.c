/* Drives dsr_write. Rate, type and place are numbers of 64 bits; place is what is lent for it.
 *   'W', mode, rate, type, place, indices, out  ->  number, kept, place, out
 *   'L', rate, type, indices' length, out's length (64 bits each), both of zeros  ->  number, 1, place, first 144 octets of out */
#include "../../c/dsr.h"
#include "drive.h"

enum { SHOWN = DSR_MULTIFRAME_OCTETS };

static struct lent indices, out, place;

static void write_wide(void) {
    uint64_t rate = take_64(), type = take_64(), indices_len = take_64(), out_len = take_64(), where = 0;
    uint8_t *zeros = wide_slice(indices_len + 1, PROT_READ);
    uint8_t *room = wide_slice(out_len + SHOWN, PROT_READ | PROT_WRITE);
    give_32(dsr_write(rate, type, zeros, indices_len, room, out_len, &where));
    give_32(1);
    give_64(where);
    give(room, SHOWN);
    munmap(zeros, indices_len + 1);
    munmap(room, out_len + SHOWN);
}

static void write_lent(void) {
    int mode = take_8();
    uint64_t rate = take_64(), type = take_64();
    take_number(&place, mode);
    take_slice(&indices, mode, 1);
    take_slice(&out, mode, 1);
    uint32_t number = dsr_write(rate, type, indices.data, indices.len, out.data, out.len, number_of(&place));
    give_32(number);
    give_32((uint32_t)(all_kept(&indices) && margin_kept(&out) && margin_kept(&place)));
    give_64(*number_of(&place));
    give(out.data, out.len);
}

int main(void) {
    indices = arena();
    out = arena();
    place = arena();
    for (;;) {
        int kind = next_call();
        if (kind == 'L') write_wide();
        else if (kind == 'W') write_lent();
        else fail("unknown call");
    }
}
