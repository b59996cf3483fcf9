/* Vellumrill: running times, block holds and earliest starts for lines under ERTMS Level 2.
 *
 * The calls of target/staticlib/libvellumrill.a, which `tools/staticlib` builds for x86-64 Linux. docs/RULES.md
 * has the rules; each call is proved against them (crates/vellumrill/src/lib.rt has the contracts), and docs/CALLS.md
 * tells more of each.
 *
 * `file` and `len` are the bytes of a line file, and train k is counted from 0. Times are in microseconds.
 *
 * What the caller owes: a pointer with a length is to that many entries, and every other pointer to one value. What a
 * call may write overlaps nothing else that is lent to it. A pointer with length 0 is not followed, and may be null.
 * Nothing is asked of the values: files, buffers, sheets and hold records may hold anything.
 *
 * Every answer has a number. 0 means accepted; any other is the first broken rule in checking order, which is that of
 * this list. The file's rules are 1 to 9 and 15.
 *
 *    1  the file ends before something that its sizes announce
 *    2  bytes follow the last announced train
 *    3  a size, a class or a length is beyond its limits; the sizes include the count of balises, 0 to 64
 *    4  limit points do not begin at 0, do not rise, or pass the last cell
 *    5  a limit is not 1 to 300 km/h
 *    6  blocks do not begin at 0, do not end after their start, overlap, or pass the last point
 *   15  balises do not strictly rise in place, have metres past their point that reach the step, or pass the last point
 *    7  band tops do not rise within 1 to 300 km/h, or a rate is not 1 to 200 cm/s2
 *    8  stops are less than two points apart or pass the last point, or a dwell is above 3,600 s
 *    9  a train has no room behind the last block
 *   10  the file has no train k
 *   11  a lent buffer has fewer entries or bytes than are to be written
 *   12  a block count is not 1 to 32, or the sheet has more than 64 trains, or a free time above trains times 2^44, or
 *       has trains and a first beginning that is not below the block's free time
 *   13  the sheet has 64 trains
 *   14  the hold record has another block count than the sheet, a hold that is empty, or an end above 2^44
 *   16  the slices of placed trains do not hold one row for each start, or there are more than 64 rows, a start or an end
 *       of the window is above 2^50, a row breaks 14, the rows overlap or are out of order, or the window ends before it
 *       begins
 *   17  no start in the window has a place among the placed trains
 */
#ifndef VELLUMRILL_H
#define VELLUMRILL_H

#include <stddef.h>
#include <stdint.h>

#ifdef __cplusplus
extern "C" {
#endif

/* The number of document 02's requests in force, from the first on; raised with each of them. */
#define VR_VERSION 7

/* The numbers by name. */
enum {
    VR_ACCEPTED = 0,
    VR_REFUSED_FILE_CUT = 1,
    VR_REFUSED_BYTES_BEHIND = 2,
    VR_REFUSED_SIZES = 3,
    VR_REFUSED_LIMIT_POINTS = 4,
    VR_REFUSED_LIMITS = 5,
    VR_REFUSED_BLOCKS = 6,
    VR_REFUSED_BANDS = 7,
    VR_REFUSED_STOPS = 8,
    VR_REFUSED_LAST_BLOCK = 9,
    VR_REFUSED_NO_SUCH_TRAIN = 10,
    VR_REFUSED_SHORT_BUFFER = 11,
    VR_REFUSED_SHEET = 12,
    VR_REFUSED_SHEET_FULL = 13,
    VR_REFUSED_HOLD_RECORD = 14,
    VR_REFUSED_BALISES = 15,
    VR_REFUSED_PLACED_ROWS = 16,
    VR_REFUSED_NO_PATH = 17
};

/* The most that an accepted file has of each, and the most bytes of the text of its sheet. */
enum { VR_MOST_POINTS = 4096, VR_MOST_TRAINS = 64, VR_MOST_BLOCKS = 32, VR_MOST_TEXT = 2390 };

/* The latest start that a window of starts or a placed train may have, 2^50 microseconds. */
#define VR_LATEST_START (UINT64_C(1) << 50)

/* The bytes of a point in the diagram, where its dot stands among them, and the most bytes of a diagram. */
enum { VR_POINT_SIZE = 25, VR_POINT_DOT = 24, VR_MOST_DIAGRAM = VR_MOST_POINTS * VR_POINT_SIZE };

/* When the hold of each block begins and ends, from the train's start on. Places beyond `blocks` are not used. */
typedef struct vr_hold_record {
    uint64_t blocks;
    uint64_t begins[VR_MOST_BLOCKS];
    uint64_t ends[VR_MOST_BLOCKS];
} vr_hold_record;

/* The sheet of starts: for each block when it is free again, and `first`, the first train's beginnings. Places beyond
 * `blocks` are not used. */
typedef struct vr_sheet {
    uint64_t blocks;
    uint64_t trains;
    uint64_t free[VR_MOST_BLOCKS];
    uint64_t first[VR_MOST_BLOCKS];
} vr_sheet;

/* Where a train's record stands in the file, and how many bytes it has. */
typedef struct vr_record_answer {
    uint64_t number;
    uint64_t start;
    uint64_t length;
} vr_record_answer;

typedef struct vr_sizes_answer {
    uint64_t number;
    uint64_t points;
    uint64_t step;
    uint64_t blocks;
    uint64_t trains;
} vr_sizes_answer;

typedef struct vr_hold_answer {
    uint64_t number;
    vr_hold_record hold;
} vr_hold_answer;

typedef struct vr_added {
    uint64_t number;
    uint64_t start;
    uint64_t block;
} vr_added;

typedef struct vr_headway_answer {
    uint64_t number;
    uint64_t headway;
} vr_headway_answer;

typedef struct vr_period_answer {
    uint64_t number;
    uint64_t period;
    uint64_t percent;
} vr_period_answer;

/* How many placed trains come before the new one. */
typedef struct vr_path_answer {
    uint64_t number;
    uint64_t start;
    uint64_t before;
} vr_path_answer;

typedef struct vr_rows_answer {
    uint64_t number;
    uint64_t trains;
} vr_rows_answer;

/* Of a call that writes bytes: how many it has written. */
typedef struct vr_written {
    uint64_t number;
    uint64_t bytes;
} vr_written;

/* Checks a file.
 * Returns 0, or the number of refusal by the file's rules. Writes nothing. */
uint64_t vr_check_file(const uint8_t *file, size_t len);

/* Checks a file and a train number.
 * Returns 0, or the number of refusal by the file's rules and 10. Writes nothing. */
uint64_t vr_check_train(const uint8_t *file, size_t len, uint64_t k);

/* Finds the record of train k, from its class to its last dwell (or last rate, if it has no stops).
 * Returns the number 0, the place of the record's first byte, counted from 0, and its count of bytes; or the number of
 * refusal by the file's rules and 10 with start 0 and length 0. Writes nothing. */
vr_record_answer vr_train_record(const uint8_t *file, size_t len, uint64_t k);

/* The sizes of a file: its points, its step in m, its blocks and its trains.
 * Returns the number 0 and these; or the number of refusal by the file's rules and zeros. Writes nothing. */
vr_sizes_answer vr_sizes(const uint8_t *file, size_t len);

/* Computes the run of train k.
 * Returns 0, or the number of refusal by the file's rules, 10 and 11. Of a line with P points it writes the P squared
 * speeds to `speeds`, in squares of hundredths of a km/h, and the P arrivals to `times`; entries from P on are kept.
 * No permitted row of speeds reaches a point before these. VR_MOST_POINTS entries are enough for every file. A refusal
 * keeps every entry. */
uint64_t vr_run(const uint8_t *file, size_t len, uint64_t k, uint32_t *speeds, size_t ns, uint64_t *times, size_t nt);

/* Computes the run and the block holds of train k.
 * Returns the number 0 and the hold record, in which places beyond the block count are 0; or the number of refusal by
 * the file's rules, 10 and 11 and a record of zeros. Writes to `speeds` and `times` what vr_run writes. A refusal
 * keeps every entry. */
vr_hold_answer vr_hold(const uint8_t *file, size_t len, uint64_t k, uint32_t *speeds, size_t ns, uint64_t *times,
                       size_t nt);

/* The speed-distance diagram of train k.
 * Returns the number 0 and the count of bytes, VR_POINT_SIZE for each of the P points; or the number of refusal by the
 * file's rules and 10, then 11 where n is less than this count, and 0 bytes. Writes to the first bytes, point after
 * point, three doubles (IEEE 754, eight bytes each, low byte first): the position in metres from the first point, the
 * speed in hundredths of a km/h, which is the root of vr_run's squared speed, and the arrival as vr_run gives it. Each
 * is a whole number below 2^53, so that turning it back into an integer loses nothing. Behind them, at VR_POINT_DOT,
 * is one byte for the point's dot: 1, a full dot, where the squared speed is the square of that speed, so also at a
 * stop; 0, an open one, where the speed was rounded down. The points are not aligned: copy the doubles out with
 * memcpy. The other bytes are kept. VR_MOST_DIAGRAM bytes are enough for every file. A refusal keeps every byte. */
vr_written vr_diagram(const uint8_t *file, size_t len, uint64_t k, uint8_t *bytes, size_t n);

/* Opens a sheet of starts for a line with so many blocks.
 * Returns 0, or the number 12. Writes to the sheet this block count, no trains, and 0 for every free time and first
 * beginning; whatever it held before. Trains added to an opened sheet never overlap in a block, and none could start
 * sooner in that order. A refusal leaves the sheet as it was. */
uint64_t vr_open(uint64_t blocks, vr_sheet *sheet);

/* Adds a train to a sheet.
 * Returns the number 0, the least start, and the block named, counted from 1: the last where start plus beginning is the
 * free time before the addition, or 0 if the start is 0; or the number of refusal by rules 12 to 14 with start 0 and block
 * 0. Writes to the sheet that the train is there and when each block is free again, and of the first train its beginnings;
 * places beyond the block count are kept. A refusal leaves the sheet as it was. */
vr_added vr_add(vr_sheet *sheet, const vr_hold_record *hold);

/* The headway of two trains: the second's start on a sheet of these two. The two pointers may be the same.
 * Returns the number 0 and the headway; or the first number of refusal met, by rules 12 to 14, and headway 0. Writes
 * nothing. */
vr_headway_answer vr_headway(const vr_hold_record *first, const vr_hold_record *second);

/* The period of a sheet: the shortest with which its trains can be repeated.
 * Returns the number 0, the period, and its percentage of 3,600 s, rounded to the nearest, halves up; or the number 12
 * with period 0 and percentage 0. The period is the greatest, over the blocks, of the free time less the first train's
 * beginning; of a sheet without trains it is 0. If adding calls have led to this sheet from one freshly opened, and it
 * has trains, then no two holds of one block overlap, however often it is repeated with this period; with one microsecond
 * less some two would, from two repetitions on. Writes nothing. */
vr_period_answer vr_period(const vr_sheet *sheet);

/* A path for one more train between those already placed.
 * `starts` has the start of each placed train, in running order. `begins` and `ends` have a row for each of them, one after
 * the other: as many entries as the new hold has blocks, the beginnings and the ends of that train's holds from its start on,
 * as vr_hold gives them. Starts need not rise: the order is that of the holds in the blocks.
 * Returns the number 0, the least start from `low` to `high`, both included, that has a place in the order, and how many
 * trains are before that place: in every block the new hold comes after all trains before it and before all others. Holds may
 * touch. With the new train put in at its place no two trains overlap in a block; no smaller start in the window has any
 * place, and this one has no other. Or the number of refusal by rules 12, 14, 16 and 17 with start 0 and before 0; 17 if
 * and only if no start in the window will do. 64 trains may be placed; if there are none, the start is `low`. Writes nothing. */
vr_path_answer vr_path(const vr_hold_record *hold, const uint64_t *starts, size_t n, const uint64_t *begins, size_t nb,
                       const uint64_t *ends, size_t ne, uint64_t low, uint64_t high);

/* The sheet of a whole file: all its trains, added in the file's order to a fresh sheet.
 * Returns the number 0 and the count of trains T; or the number of refusal by the file's rules, then 11 where one of
 * the three has fewer than T entries, and 0 trains. Writes to the first T entries of `starts`, `runs` and `blocks`
 * each train's start, its running time and the block named, as vr_add and vr_run give them; entries from T on
 * are kept. No two trains overlap in a block, and none could start sooner in that order. VR_MOST_TRAINS entries are
 * enough for every file. A refusal keeps every entry. */
vr_rows_answer vr_rows(const uint8_t *file, size_t len, uint64_t *starts, size_t n1, uint64_t *runs, size_t n2,
                       uint64_t *blocks, size_t n3);

/* The same sheet as text: a line "train start run block", then a line for each train, counted from 1.
 * Returns the number 0 and the count of bytes; or the number of refusal by the file's rules, then 11 where the text
 * has more than n bytes, and 0 bytes. Writes the text to the first bytes of `text`; the others are kept. VR_MOST_TEXT
 * bytes are enough for every file. A refusal keeps every byte. */
vr_written vr_study(const uint8_t *file, size_t len, uint8_t *text, size_t n);

#ifdef __cplusplus
}
#endif

#endif
