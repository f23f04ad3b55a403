/* Issue 3: packing and unpacking a stream of twelve packets with their CRCs, each at least 8 times as fast. */
#include "../literal/literal.h"
#include "../../c/dsr.h"
#include "bench.h"

static uint8_t indices[INDEX_OCTETS], stream[STREAM_OCTETS], back[INDEX_OCTETS], notes[PAIRS];
static volatile uint32_t sink;

static void run_library_pack(void) { sink = dsr_pack(indices, sizeof indices, stream, sizeof stream); }

/* The literal side looks at the indices too, as the library does. */
static void run_literal_pack(void) {
    uint32_t fit = 1;
    for (unsigned f = 0; f < FRAMES; f++) fit &= (uint32_t)literal_index_fits(indices + FRAME_INDICES * f);
    if (fit) literal_pack(indices, stream);
    sink = fit;
}

static void run_library_unpack(void) { sink = dsr_unpack(stream, sizeof stream, back, sizeof back, notes, sizeof notes); }
static void run_literal_unpack(void) { literal_unpack(stream, back, notes); }

int main(int argc, char **argv) {
    uint8_t first[STREAM_OCTETS];
    for (unsigned f = 0; f < FRAMES; f++) speech_frame(indices + FRAME_INDICES * f);
    run_library_pack();
    memcpy(first, stream, sizeof first);
    run_literal_pack();
    same("packed stream", first, stream, sizeof first);
    run_library_unpack();
    same("unpacked indices", back, indices, sizeof back);
    run_literal_unpack();
    same("unpacked indices", back, indices, sizeof back);

    bench_start(argc, argv, "stream, twelve packets");
    row("pack", 8, 1, run_library_pack, run_literal_pack);
    row("unpack", 8, 1, run_library_unpack, run_literal_unpack);
    return bench_end();
}
