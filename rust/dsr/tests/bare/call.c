/* Calls the library that has no std: a frame comes back with no bit outside, and an all-zero frame is refusal 5. */
#include <stdint.h>
#include <stdio.h>

int64_t bare_round_trip(const uint8_t *frame);

int main(void) {
    const uint8_t said[7] = {5, 12, 63, 0, 7, 9, 255}, zero[7] = {0};
    int64_t outside = bare_round_trip(said), refused = bare_round_trip(zero);
    printf("no std: %d bits outside, refusal %d\n", (int)outside, (int)-refused);
    return outside != 0 || refused != -5;
}
