/* Prints the hour pattern of a line file: the shortest period with which its sheet can be repeated, in microseconds, and its
 * percentage of an hour. Build it from the top of the repository, after `tools/staticlib`:
 *
 *     gcc -std=c11 -O2 -Iinclude examples/c/period.c target/staticlib/libvellumrill.a -o target/period_c
 *     tools/linefile pack examples/valley.txt target/valley.line
 *     target/period_c target/valley.line
 */
#include <inttypes.h>
#include <stdio.h>

#include "vellumrill.h"

/* No accepted file has so many bytes. */
enum { MOST_BYTES = 16384 };

/* Opens the sheet and adds all trains of a file in its order. Returns 0 or the number of refusal. */
static uint64_t fill_sheet(const uint8_t *file, size_t len, vr_sheet *sheet)
{
    static uint32_t speeds[VR_MOST_POINTS];
    static uint64_t times[VR_MOST_POINTS];
    vr_sizes_answer sizes = vr_sizes(file, len);
    if (sizes.number != VR_ACCEPTED)
        return sizes.number;
    uint64_t number = vr_open(sizes.blocks, sheet);
    for (uint64_t k = 0; number == VR_ACCEPTED && k < sizes.trains; ++k) {
        vr_hold_answer answer = vr_hold(file, len, k, speeds, VR_MOST_POINTS, times, VR_MOST_POINTS);
        number = answer.number != VR_ACCEPTED ? answer.number : vr_add(sheet, &answer.hold).number;
    }
    return number;
}

int main(int argc, char **argv)
{
    static uint8_t file[MOST_BYTES];
    FILE *in = argc == 2 ? fopen(argv[1], "rb") : NULL;
    if (in == NULL) {
        fprintf(stderr, "usage: period_c LINEFILE\n");
        return 2;
    }
    size_t len = fread(file, 1, sizeof file, in);
    fclose(in);

    vr_sheet sheet;
    vr_period_answer answer = {fill_sheet(file, len, &sheet), 0, 0};
    if (answer.number == VR_ACCEPTED)
        answer = vr_period(&sheet);
    if (answer.number != VR_ACCEPTED) {
        printf("refused %" PRIu64 "\n", answer.number);
        return 1;
    }
    printf("period percent\n%" PRIu64 " %" PRIu64 "\n", answer.period, answer.percent);
    return 0;
}
