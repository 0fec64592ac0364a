/* Joins two roads with heights, of which one was not surveyed, and prints the chain as WKB of type 1002. */
#include <inttypes.h>
#include <math.h>
#include <stdio.h>

#include "lovasuku.h"

enum { LINES = 2, POINTS = 4, TYPE = LOVASUKU_XYZ, NUMBERS = 3 * POINTS, BYTES = 9 * LINES + 8 * NUMBERS };

/* From 0,0 to 1,0, at heights of 210.5 and 211, and from 2,0, which has none, to 1,0 at 213. */
static const double coordinates[NUMBERS] = {0, 0, 210.5, 1, 0, 211, 2, 0, NAN, 1, 0, 213};
static const uint32_t counts[LINES] = {2, 2};
static const uint32_t groups[LINES] = {0, 0};
static const uint8_t kinds[LINES] = {0, 0};

static uint32_t table[LOVASUKU_RECORD * LINES];
static uint32_t members[LINES];
static uint8_t marks[LINES];
static uint32_t listing[LINES];
static double boxes[lovasuku_boxes_room(LINES)];
static double merged[lovasuku_merged_room(TYPE, POINTS)];
static double spare[lovasuku_spare_room(TYPE, POINTS)];
static uint64_t workspace[LOVASUKU_LINE_WORKSPACE * LINES];

static uint8_t run[BYTES];
static uint64_t lengths[LINES];

int main(void) {
    int64_t chains =
        lovasuku_build(TYPE, coordinates, NUMBERS, counts, LINES, groups, LINES, kinds, LINES, 0.0, 0.0, 0.0, 0, 0.0,
                       table, LOVASUKU_RECORD * LINES, members, LINES, marks, LINES, listing, LINES, merged, NUMBERS,
                       boxes, lovasuku_boxes_room(LINES), spare, NUMBERS, workspace, LOVASUKU_LINE_WORKSPACE * LINES);
    if (chains < 0) {
        fprintf(stderr, "refusal %" PRId64 "\n", -chains);
        return 1;
    }
    for (uint32_t i = table[3]; i < table[3] + table[4]; i++) {
        printf("%g,%g,%g\n", merged[3 * i], merged[3 * i + 1], merged[3 * i + 2]);
    }
    int64_t bytes = lovasuku_write_wkb(TYPE, coordinates, NUMBERS, merged, NUMBERS, table, LOVASUKU_RECORD * LINES,
                                       (uint64_t)chains, 1, run, BYTES, lengths, LINES);
    for (int64_t i = 0; i < bytes; i++) {
        printf("%02x", run[i]);
    }
    printf("\n");
    return 0;
}
