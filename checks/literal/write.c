/* The writer (01, "Writing"). */
#include "literal.h"

static uint32_t refuse(uint64_t *place, uint32_t number, uint64_t where) {
    *place = where;
    return number;
}

static void put_multiframe(uint8_t rate, uint8_t type, size_t position, const uint8_t *frames, uint8_t *out) {
    uint16_t message = (uint16_t)(rate | type << 2 | (position % 16) << 3);
    uint32_t word = literal_header_encode(message);
    out[0] = 0x87;
    out[1] = 0xB2;
    for (unsigned i = 0; i < HEADER_OCTETS; i++) out[SYNC_OCTETS + i] = (uint8_t)(word >> (8 * i));
    literal_pack(frames, out + SYNC_OCTETS + HEADER_OCTETS);
}

uint32_t literal_write(uint64_t rate, uint64_t type, const uint8_t *indices, size_t indices_len, uint8_t *out, size_t out_len,
                        uint64_t *place) {
    if ((rate != 0 && rate != 1 && rate != 3) || type > 1) return refuse(place, 1, 0);
    if (indices_len % FRAME_INDICES != 0) return refuse(place, 2, indices_len);
    size_t n = indices_len / FRAME_INDICES;
    if (n > MOST_FRAMES) return refuse(place, 3, n);
    for (size_t f = 1; f <= n; f++)
        if (!literal_index_fits(indices + FRAME_INDICES * (f - 1))) return refuse(place, 4, f);
    for (size_t f = 1; f <= n; f++)
        if ((f == n || f % FRAMES == 0) && literal_zero_frame(indices + FRAME_INDICES * (f - 1))) return refuse(place, 5, f);
    size_t m = n / FRAMES + 1;
    if (out_len < MULTIFRAME_OCTETS * m) return refuse(place, 6, MULTIFRAME_OCTETS * m);

    for (size_t k = 0; k < m; k++) {
        uint8_t frames[INDEX_OCTETS];
        for (size_t i = 0; i < INDEX_OCTETS; i++) {
            size_t at = INDEX_OCTETS * k + i;
            frames[i] = at < indices_len ? indices[at] : 0;
        }
        put_multiframe((uint8_t)rate, (uint8_t)type, k + 1, frames, out + MULTIFRAME_OCTETS * k);
    }
    *place = MULTIFRAME_OCTETS * m;
    return 0;
}
