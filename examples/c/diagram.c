/* Prints the speed-distance diagram of a train, a line for each point: the position in m, the speed in km/h, the arrival in
 * seconds after the start, and the dot: full where the speed is whole, open where it was rounded down. Build it from the top
 * of the repository, after `tools/staticlib`:
 *
 *     gcc -std=c11 -O2 -Iinclude examples/c/diagram.c target/staticlib/libvellumrill.a -o target/diagram_c
 *     tools/linefile pack examples/valley.txt target/valley.line
 *     target/diagram_c target/valley.line 1
 */
#include <inttypes.h>
#include <stdio.h>
#include <stdlib.h>
#include <string.h>

#include "vellumrill.h"

/* No accepted file has so many bytes. */
enum { MOST_BYTES = 16384 };

int main(int argc, char **argv)
{
    static uint8_t file[MOST_BYTES];
    static uint8_t bytes[VR_MOST_DIAGRAM];
    FILE *in = argc == 3 ? fopen(argv[1], "rb") : NULL;
    if (in == NULL) {
        fprintf(stderr, "usage: diagram_c LINEFILE TRAIN, the first train is 1\n");
        return 2;
    }
    size_t len = fread(file, 1, sizeof file, in);
    fclose(in);

    uint64_t k = strtoull(argv[2], NULL, 10) - 1;
    vr_written answer = vr_diagram(file, len, k, bytes, sizeof bytes);
    if (answer.number != VR_ACCEPTED) {
        printf("refused %" PRIu64 "\n", answer.number);
        return 1;
    }
    printf("position speed arrival dot\n");
    for (const uint8_t *point = bytes; point < bytes + answer.bytes; point += VR_POINT_SIZE) {
        double figures[3];
        memcpy(figures, point, sizeof figures);
        printf("%.0f %.2f %.6f %s\n", figures[0], figures[1] / 100, figures[2] / 1e6, point[VR_POINT_DOT] ? "full" : "open");
    }
    return 0;
}
