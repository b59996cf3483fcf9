/* Asks the library every call for each question read from standard input, with exactly sized memory from the heap, and
   prints the answers: a line for each call with its name and numbers, and an empty line after each question.

   A question is four numbers of 8 bytes, low byte first: the file's length, the train number, the lengths of the buffers
   for speeds and times. The file's bytes follow. Of a buffer the entries are printed up to the last one written, and
   their count before them. */
#include "vellumrill.h"

#include <inttypes.h>
#include <stdint.h>
#include <stdio.h>
#include <stdlib.h>
#include <string.h>

enum { PATTERN = 0xA5, PLACES = 32 };

struct question {
    uint64_t length, k, speeds_length, times_length;
    uint8_t *file;
    uint32_t *speeds;
    uint64_t *times;
};

/* Null for no bytes: the library must not follow it. */
static void *filled(size_t bytes)
{
    if (bytes == 0)
        return NULL;
    void *memory = malloc(bytes);
    if (memory == NULL)
        exit(2);
    memset(memory, PATTERN, bytes);
    return memory;
}

static void read_exactly(void *target, size_t bytes)
{
    if (bytes > 0 && fread(target, 1, bytes, stdin) != bytes)
        exit(2);
}

static int read_question(struct question *asked)
{
    uint64_t head[4];
    if (fread(head, sizeof head, 1, stdin) != 1)
        return 0;
    asked->length = head[0];
    asked->k = head[1];
    asked->speeds_length = head[2];
    asked->times_length = head[3];
    asked->file = filled(asked->length);
    read_exactly(asked->file, asked->length);
    return 1;
}

static void lend_buffers(struct question *asked)
{
    asked->speeds = filled(asked->speeds_length * sizeof *asked->speeds);
    asked->times = filled(asked->times_length * sizeof *asked->times);
}

static void print_numbers(const uint64_t *numbers, size_t count)
{
    for (size_t i = 0; i < count; i++)
        printf(" %" PRIu64, numbers[i]);
}

/* How many entries stand before those that keep the pattern to the end. The highest byte of an entry written is never
   that of the pattern. */
static size_t written(const void *entries, size_t size, size_t count)
{
    const uint8_t *bytes = entries;
    size_t left = size * count;
    while (left > 0 && bytes[left - 1] == PATTERN)
        left--;
    return (left + size - 1) / size;
}

static void print_speeds(const uint32_t *speeds, size_t count)
{
    printf(" %zu", count);
    for (size_t i = 0; i < count; i++)
        printf(" %" PRIu32, speeds[i]);
}

static void print_times(const uint64_t *times, size_t count)
{
    printf(" %zu", count);
    print_numbers(times, count);
}

static void take_back_buffers(struct question *asked)
{
    print_speeds(asked->speeds, written(asked->speeds, sizeof *asked->speeds, asked->speeds_length));
    print_times(asked->times, written(asked->times, sizeof *asked->times, asked->times_length));
    printf("\n");
    free(asked->speeds);
    free(asked->times);
}

static void print_sheet(const vr_sheet *sheet)
{
    printf(" %" PRIu64 " %" PRIu64, sheet->blocks, sheet->trains);
    print_numbers(sheet->free, PLACES);
    print_numbers(sheet->first, PLACES);
    printf("\n");
}

/* The call may not alter the sheet. */
static void ask_period(const vr_sheet *sheet)
{
    vr_sheet before = *sheet;
    vr_period_answer answer = vr_period(sheet);
    if (memcmp(&before, sheet, sizeof before) != 0)
        exit(3);
    printf("period %" PRIu64 " %" PRIu64 " %" PRIu64 "\n", answer.number, answer.period, answer.percent);
}

/* How many places the columns of the whole file get, and how many bytes its text: enough, or too few. */
enum { COLUMNS = 3, COLUMN_BOUND = 80, TEXT_BOUND = 3000 };

/* What a call that is lent bytes alone answers, and the bytes that it has written. */
static void print_written(const char *call, vr_written answer, uint8_t *bytes, size_t length)
{
    printf("%s %" PRIu64 " %" PRIu64, call, answer.number, answer.bytes);
    size_t count = written(bytes, 1, length);
    for (size_t i = 0; i < count; i++)
        printf(" %d", bytes[i]);
    printf("\n");
    free(bytes);
}

static void ask_whole_file(const struct question *asked)
{
    vr_sizes_answer sizes = vr_sizes(asked->file, asked->length);
    printf("sizes %" PRIu64 " %" PRIu64 " %" PRIu64 " %" PRIu64 " %" PRIu64 "\n",
           sizes.number, sizes.points, sizes.step, sizes.blocks, sizes.trains);

    uint64_t *columns[COLUMNS];
    size_t lengths[COLUMNS];
    for (size_t i = 0; i < COLUMNS; i++) {
        lengths[i] = (asked->speeds_length + i * asked->times_length) % COLUMN_BOUND;
        columns[i] = filled(lengths[i] * sizeof *columns[i]);
    }
    vr_rows_answer rows = vr_rows(asked->file, asked->length, columns[0], lengths[0], columns[1], lengths[1],
                                  columns[2], lengths[2]);
    printf("rows %" PRIu64 " %" PRIu64, rows.number, rows.trains);
    for (size_t i = 0; i < COLUMNS; i++) {
        print_times(columns[i], written(columns[i], sizeof *columns[i], lengths[i]));
        free(columns[i]);
    }
    printf("\n");

    size_t text_length = 7 * asked->speeds_length % TEXT_BOUND;
    uint8_t *text = filled(text_length);
    vr_written study = vr_study(asked->file, asked->length, text, text_length);
    print_written("study", study, text, text_length);
}

/* Bytes for as many points as there are entries for speeds, or one byte less or more. */
static void ask_diagram(const struct question *asked)
{
    size_t length = VR_POINT_SIZE * asked->speeds_length + asked->times_length % 3;
    length -= length > 0;
    uint8_t *bytes = filled(length);
    vr_written diagram = vr_diagram(asked->file, asked->length, asked->k, bytes, length);
    print_written("diagram", diagram, bytes, length);
}

static void ask_checks(const struct question *asked)
{
    printf("check_file %" PRIu64 "\n", vr_check_file(asked->file, asked->length));
    printf("check_train %" PRIu64 "\n", vr_check_train(asked->file, asked->length, asked->k));
    vr_record_answer record = vr_train_record(asked->file, asked->length, asked->k);
    printf("train_record %" PRIu64 " %" PRIu64 " %" PRIu64 "\n", record.number, record.start, record.length);
}

static void ask_run(struct question *asked)
{
    lend_buffers(asked);
    uint64_t number = vr_run(asked->file, asked->length, asked->k,
                             asked->speeds, asked->speeds_length, asked->times, asked->times_length);
    printf("run %" PRIu64, number);
    take_back_buffers(asked);
}

/* The hold record is on the heap: the caller frees it. */
static vr_hold_record *ask_hold(struct question *asked)
{
    vr_hold_record *hold = filled(sizeof *hold);
    lend_buffers(asked);
    vr_hold_answer answer = vr_hold(asked->file, asked->length, asked->k,
                                    asked->speeds, asked->speeds_length, asked->times, asked->times_length);
    *hold = answer.hold;
    printf("hold %" PRIu64 " %" PRIu64, answer.number, hold->blocks);
    print_numbers(hold->begins, PLACES);
    print_numbers(hold->ends, PLACES);
    take_back_buffers(asked);
    return hold;
}

enum { PLACED = 3 };

/* The train once more among three placed ones, of which the last two leave just room for it. The slices are exactly sized. */
static void ask_path(const vr_hold_record *hold, uint64_t headway, size_t missing, uint64_t high)
{
    size_t entries = PLACED * hold->blocks, size = sizeof(uint64_t);
    size_t ends_length = entries > missing ? entries - missing : 0;
    uint64_t *starts = filled(PLACED * size), *begins = filled(entries * size), *ends = filled(ends_length * size);
    for (size_t t = 0; t < PLACED; t++)
        starts[t] = (t < 2 ? t : 3) * headway;
    for (size_t i = 0; i < entries; i++)
        begins[i] = hold->begins[i % hold->blocks];
    for (size_t i = 0; i < ends_length; i++)
        ends[i] = hold->ends[(i + missing) % hold->blocks];
    vr_path_answer answer = vr_path(hold, starts, PLACED, begins, entries, ends, ends_length, 0, high);
    printf("path %" PRIu64 " %" PRIu64 " %" PRIu64 "\n", answer.number, answer.start, answer.before);
    free(starts);
    free(begins);
    free(ends);
}

static void ask_sheet(const vr_hold_record *hold)
{
    vr_sheet *sheet = filled(sizeof *sheet);
    uint64_t number = vr_open(hold->blocks, sheet);
    if (number != 0) {
        /* nothing may be written; the calls below get zeros */
        if (written(sheet, 1, sizeof *sheet) != 0)
            exit(3);
        memset(sheet, 0, sizeof *sheet);
    }
    printf("open %" PRIu64, number);
    print_sheet(sheet);
    ask_period(sheet);
    for (int i = 0; i < 2; i++) {
        vr_added added = vr_add(sheet, hold);
        printf("add %" PRIu64 " %" PRIu64 " %" PRIu64, added.number, added.start, added.block);
        print_sheet(sheet);
        ask_period(sheet);
    }
    vr_headway_answer headway = vr_headway(hold, hold);
    printf("headway %" PRIu64 " %" PRIu64 "\n", headway.number, headway.headway);
    ask_path(hold, headway.headway, 0, 2 * headway.headway);
    ask_path(hold, headway.headway, 0, 2 * headway.headway - (headway.headway > 0));
    ask_path(hold, headway.headway, 0, VR_LATEST_START);
    ask_path(hold, headway.headway, 1, VR_LATEST_START);
    free(sheet);
}

int main(void)
{
    struct question asked;
    while (read_question(&asked)) {
        ask_checks(&asked);
        ask_whole_file(&asked);
        ask_diagram(&asked);
        ask_run(&asked);
        vr_hold_record *hold = ask_hold(&asked);
        ask_sheet(hold);
        printf("\n");
        free(hold);
        free(asked.file);
    }
    return 0;
}
