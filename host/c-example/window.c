/* Joins four roads and prints which chains lie in a window. */
#include <inttypes.h>
#include <stdio.h>

#include "lovasuku.h"

enum { LINES = 4, POINTS = 8, BOXES = 8 * LINES + 64 };

/* From 0,0 to 1,0 and on to 2,0; from 5,5 to 6,9; from 9,0 to 9,1. */
static const double coordinates[2 * POINTS] = {0, 0, 1, 0, 5, 5, 6, 9, 1, 0, 2, 0, 9, 0, 9, 1};
static const uint32_t counts[LINES] = {2, 2, 2, 2};
static const uint32_t groups[LINES] = {0, 0, 0, 0};
static const uint8_t kinds[LINES] = {0, 0, 0, 0};

static uint32_t table[LOVASUKU_RECORD * LINES];
static uint32_t members[LINES];
static uint8_t marks[LINES];
static uint32_t listing[LINES];
static double merged[2 * POINTS];
static double boxes[BOXES];
static double spare[2 * POINTS];
static uint64_t workspace[LOVASUKU_LINE_WORKSPACE * LINES];

static uint32_t found[LINES];

/* Prints the chains in a window, which touches what it ends at. */
static int print_found(int64_t chains, double west, double south, double east, double north) {
    int64_t number = lovasuku_window(boxes, BOXES, (uint64_t)chains, west, south, east, north, found, LINES);
    if (number < 0) {
        fprintf(stderr, "window: refusal %" PRId64 "\n", -number);
        return 1;
    }
    printf("from %g,%g to %g,%g:", west, south, east, north);
    for (int64_t i = 0; i < number; i++) {
        const double *box = boxes + LOVASUKU_BOX * found[i];
        printf(" chain %" PRIu32 " (%g,%g to %g,%g)", found[i], box[0], box[1], box[2], box[3]);
    }
    printf("\n");
    return 0;
}

int main(void) {
    int64_t chains =
        lovasuku_build(LOVASUKU_XY, coordinates, 2 * POINTS, counts, LINES, groups, LINES, kinds, LINES, 0.0, 0.0, 0.0,
                       0, 0.0, table, LOVASUKU_RECORD * LINES, members, LINES, marks, LINES, listing, LINES, merged,
                       2 * POINTS, boxes, BOXES, spare, 2 * POINTS, workspace, LOVASUKU_LINE_WORKSPACE * LINES);
    if (chains < 0) {
        fprintf(stderr, "build: refusal %" PRId64 "\n", -chains);
        return 1;
    }
    printf("chains %" PRId64 "\n", chains);
    return print_found(chains, 2, -1, 5, 5) || print_found(chains, 8, 0, 10, 10) || print_found(chains, 3, 0, 4, 9);
}
