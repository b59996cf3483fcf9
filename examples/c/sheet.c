/* Prints the sheet of a line file. Build it from the top of the repository, after `tools/staticlib`:
 *
 *     gcc -std=c11 -O2 -Iinclude examples/c/sheet.c target/staticlib/libvellumrill.a -o target/sheet_c
 *     tools/linefile pack examples/valley.txt target/valley.line
 *     target/sheet_c target/valley.line
 */
#include <inttypes.h>
#include <stdio.h>

#include "vellumrill.h"

enum { MOST_BYTES = 16384 };

int main(int argc, char **argv)
{
    static uint8_t file[MOST_BYTES + 1];
    uint64_t starts[VR_MOST_TRAINS], runs[VR_MOST_TRAINS], blocks[VR_MOST_TRAINS];
    FILE *in = argc == 2 ? fopen(argv[1], "rb") : NULL;
    if (in == NULL) {
        fprintf(stderr, "usage: sheet_c LINEFILE\n");
        return 2;
    }
    size_t len = fread(file, 1, sizeof file, in);
    fclose(in);

    vr_rows_answer answer = {VR_REFUSED_BYTES_BEHIND, 0};
    if (len <= MOST_BYTES)
        answer = vr_rows(file, len, starts, VR_MOST_TRAINS, runs, VR_MOST_TRAINS, blocks, VR_MOST_TRAINS);
    if (answer.number != VR_ACCEPTED) {
        printf("refused %" PRIu64 "\n", answer.number);
        return 1;
    }
    printf("train start run block\n");
    for (uint64_t k = 0; k < answer.trains; ++k)
        printf("%" PRIu64 " %" PRIu64 " %" PRIu64 " %" PRIu64 "\n", k + 1, starts[k], runs[k], blocks[k]);
    return 0;
}
