/* The block engine beside the plain walk, in processor time. For each file: its octets and items, the walk in nanoseconds, the engine's time
   over the walk's in one block and in blocks of 512, and that of one block of 512 in nanoseconds. The three are measured in turn, each so often
   that a measurement takes a fifth of a millisecond, and the best of ROUNDS counts. `bench/blocks` makes the archive that it is linked with.
   usage: blocks ROUNDS FILE.. */
#define _POSIX_C_SOURCE 199309L
#include "odif.h"
#include <stdio.h>
#include <stdlib.h>
#include <time.h>

typedef struct {
    size_t number, place, count;
} told;
told plain_walk(const uint8_t *stream, size_t stream_len);

static uint8_t octets[1 << 20];
static size_t size;

static size_t walked(size_t block) {
    (void)block;
    return plain_walk(octets, size).count;
}

static size_t taken(size_t block) {
    odif_taken now = odif_blocks_start(size);
    for (size_t at = 0; at < size; at += block)
        now = odif_blocks_take(now.state, octets + at, size - at < block ? size - at : block);
    return odif_blocks_close(now.state).headers;
}

static double clock_now(void) {
    struct timespec now;
    clock_gettime(CLOCK_PROCESS_CPUTIME_ID, &now);
    return now.tv_sec * 1e9 + now.tv_nsec;
}

/* The time of one, in nanoseconds, if it is less than what was the best. */
static double better(double best, size_t (*one)(size_t), size_t block, int times) {
    volatile size_t sum = 0;
    double begun = clock_now();
    for (int i = 0; i < times; i++) sum += one(block);
    double time = (clock_now() - begun) / times;
    return time < best ? time : best;
}

int main(int count, char **words) {
    int rounds = atoi(words[1]);
    for (int k = 2; k < count; k++) {
        FILE *file = fopen(words[k], "rb");
        if (!file) return 2;
        size = fread(octets, 1, sizeof octets, file);
        fclose(file);
        size_t items = walked(0);
        if (taken(size) != items || taken(512) != items || taken(1) != items) return 1;
        double walk = 1e18, one = 1e18, many = 1e18;
        int times = 1 + (int)(2e5 / better(1e18, walked, 0, 3));
        for (int round = 0; round < rounds; round++) {
            walk = better(walk, walked, 0, times);
            one = better(one, taken, size, times);
            many = better(many, taken, 512, times);
        }
        double blocks = (double)((size + 511) / 512);
        printf("%zu %zu %.1f %.3f %.3f %.1f\n", size, items, walk, one / walk, many / walk, many / blocks);
        fflush(stdout);
    }
}
