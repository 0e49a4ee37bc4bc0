/* A C program over the block engine's part of include/odif.h: it prints what it is answered, for a test to compare. */
#include <inttypes.h>
#include <stdio.h>
#include <string.h>
#include "odif.h"

static const uint8_t letter[] =
    "\xA0\x00"
    "\xA2\x11\x02\x01\x04\x31\x0C\x41\x05" "1 0 2" "\xA1\x03\x12\x01" "0"
    "\xA3\x0F\x31\x09\x40\x07" "1 0 2 0" "\x04\x02" "Hi";
static uint8_t octets[ODIF_STREAM_LIMIT + 1];

typedef char sizes_are_as_they_should_be[
    sizeof(odif_blocks) == ODIF_BLOCKS_SIZE && sizeof(odif_taken) == ODIF_BLOCKS_SIZE + 8 && sizeof(odif_walked) == 12
    ? 1 : -1];

static void print(odif_walked told) {
    printf("%" PRIu32 " %" PRIu32 " %" PRIu32 "\n", told.number, told.place, told.headers);
}

int main(void) {
    size_t length = sizeof letter - 1, sizes[] = {1, 2, 7, 38};
    for (size_t i = 0; i < 4; i++) {
        odif_taken now = odif_blocks_start(length);
        for (size_t at = 0; at < length; at += sizes[i]) {
            size_t left = length - at;
            now = odif_blocks_take(now.state, letter + at, left < sizes[i] ? left : sizes[i]);
        }
        now = odif_blocks_take(now.state, NULL, 0);
        printf("%d: ", (int)sizes[i]);
        print(odif_blocks_close(now.state));
    }
    odif_taken first = odif_blocks_take(odif_blocks_start(length).state, letter, 3);
    printf("early ");
    print(odif_blocks_close(first.state));
    odif_taken past = odif_blocks_take(first.state, letter, length - 2);
    printf("past %" PRIu32 " %s\n", past.number, memcmp(&past.state, &first.state, sizeof first.state) ? "differs" : "same");
    odif_taken long_one = odif_blocks_start(sizeof octets);
    printf("too long %" PRIu32 ", ", long_one.number);
    print(odif_blocks_close(odif_blocks_take(long_one.state, octets, sizeof octets).state));
    return 0;
}
