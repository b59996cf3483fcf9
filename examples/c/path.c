/* Asks for a path for one more train between those already sold. The first trains of a line file are sold, with the starts given,
 * in seconds; one more like train TRAIN is to start from FROM to TO. Prints the least start that has a place, in microseconds, and how
 * many of the sold trains are before it. Build it from the top of the repository, after `tools/staticlib`:
 *
 *     gcc -std=c11 -O2 -Iinclude examples/c/path.c target/staticlib/libvellumrill.a -o target/path_c
 *     tools/linefile pack examples/valley.txt target/valley.line
 *     target/path_c target/valley.line 1 0 3600 0 300 1500 2100
 */
#include <inttypes.h>
#include <stdio.h>
#include <stdlib.h>
#include <string.h>

#include "vellumrill.h"

/* No accepted file has so many bytes. */
enum { MOST_BYTES = 16384, FIRST_START = 5 };

static vr_hold_answer hold_of(const uint8_t *file, size_t len, uint64_t k)
{
    static uint32_t speeds[VR_MOST_POINTS];
    static uint64_t times[VR_MOST_POINTS];
    return vr_hold(file, len, k, speeds, VR_MOST_POINTS, times, VR_MOST_POINTS);
}

static uint64_t seconds(const char *word)
{
    return strtoull(word, NULL, 10) * 1000000;
}

/* The sold trains in three columns, a row of each behind the row before. Returns 0 or the number of refusal. */
static uint64_t place(const uint8_t *file, size_t len, size_t sold, char **words, uint64_t *starts, uint64_t *begins, uint64_t *ends)
{
    for (size_t k = 0; k < sold; ++k) {
        vr_hold_answer train = hold_of(file, len, k);
        if (train.number != VR_ACCEPTED)
            return train.number;
        size_t blocks = train.hold.blocks;
        starts[k] = seconds(words[k]);
        memcpy(begins + k * blocks, train.hold.begins, blocks * sizeof *begins);
        memcpy(ends + k * blocks, train.hold.ends, blocks * sizeof *ends);
    }
    return VR_ACCEPTED;
}

int main(int argc, char **argv)
{
    static uint8_t file[MOST_BYTES];
    static uint64_t starts[VR_MOST_TRAINS], begins[VR_MOST_TRAINS * VR_MOST_BLOCKS], ends[VR_MOST_TRAINS * VR_MOST_BLOCKS];
    size_t sold = argc - FIRST_START;
    FILE *in = argc >= FIRST_START && sold <= VR_MOST_TRAINS ? fopen(argv[1], "rb") : NULL;
    if (in == NULL) {
        fprintf(stderr, "usage: path_c LINEFILE TRAIN FROM TO START.., the first train is 1\n");
        return 2;
    }
    size_t len = fread(file, 1, sizeof file, in);
    fclose(in);

    vr_hold_answer one_more = hold_of(file, len, strtoull(argv[2], NULL, 10) - 1);
    uint64_t number = one_more.number;
    if (number == VR_ACCEPTED)
        number = place(file, len, sold, argv + FIRST_START, starts, begins, ends);
    vr_path_answer answer = {number, 0, 0};
    if (number == VR_ACCEPTED) {
        size_t entries = sold * one_more.hold.blocks;
        answer = vr_path(&one_more.hold, starts, sold, begins, entries, ends, entries, seconds(argv[3]), seconds(argv[4]));
    }
    if (answer.number != VR_ACCEPTED) {
        printf("refused %" PRIu64 "\n", answer.number);
        return 1;
    }
    printf("start before\n%" PRIu64 " %" PRIu64 "\n", answer.start, answer.before);
    return 0;
}
