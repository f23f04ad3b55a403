/* Drives dsr_pack and dsr_unpack.
 *   'P', mode, indices, stream         ->  answer, kept, stream
 *   'U', mode, stream, indices, notes  ->  answer, kept, indices, notes
 *   'p' and 'u', lengths of stream, indices and notes (64 bits each), all zeros  ->  answer
 * A slice is a length of 32 bits and its octets; one that is written is lent with the octets that the call gives. */
#include "../../c/dsr.h"
#include "drive.h"

static void pack(struct lent *indices, struct lent *stream, int mode) {
    take_slice(indices, mode, 1);
    take_slice(stream, mode, 1);
    uint32_t answer = dsr_pack(indices->data, indices->len, stream->data, stream->len);
    give_32(answer);
    give_32((uint32_t)(all_kept(indices) && margin_kept(stream)));
    give(stream->data, stream->len);
}

static void unpack(struct lent *stream, struct lent *indices, struct lent *notes, int mode) {
    take_slice(stream, mode, 1);
    take_slice(indices, mode, 1);
    take_slice(notes, mode, 1);
    uint32_t answer = dsr_unpack(stream->data, stream->len, indices->data, indices->len, notes->data, notes->len);
    give_32(answer);
    give_32((uint32_t)(all_kept(stream) && margin_kept(indices) && margin_kept(notes)));
    give(indices->data, indices->len);
    give(notes->data, notes->len);
}

static void pack_or_unpack_wide(int kind) {
    uint64_t len[3];
    uint8_t *zeros[3];
    for (unsigned i = 0; i < 3; i++) {
        len[i] = take_64();
        zeros[i] = wide_slice(len[i] + 1, PROT_READ | PROT_WRITE);
    }
    give_32(kind == 'p' ? dsr_pack(zeros[1], len[1], zeros[0], len[0])
                        : dsr_unpack(zeros[0], len[0], zeros[1], len[1], zeros[2], len[2]));
    for (unsigned i = 0; i < 3; i++) munmap(zeros[i], len[i] + 1);
}

int main(void) {
    struct lent indices = arena(), stream = arena(), notes = arena();
    for (;;) {
        int kind = next_call();
        if (kind == 'p' || kind == 'u') {
            pack_or_unpack_wide(kind);
            continue;
        }
        int mode = take_8();
        if (kind == 'P') pack(&indices, &stream, mode);
        else if (kind == 'U') unpack(&stream, &indices, &notes, mode);
        else fail("unknown call");
    }
}
