/* Joins three roads, one of them drawn the other way and one a little apart, and prints the chain. */
#include <inttypes.h>
#include <stdio.h>

#include "lovasuku.h"

enum { LINES = 3, POINTS = 6 };

/* The roads run from 0 to 1.25, from 4.5 to 3.5 and from 3.5 to 1.75. */
static const double coordinates[2 * POINTS] = {0, 0, 1.25, 0, 4.5, 0, 3.5, 0, 3.5, 0, 1.75, 0};
static const uint32_t counts[LINES] = {2, 2, 2};
static const uint32_t groups[LINES] = {0, 0, 0};
static const uint8_t kinds[LINES] = {0, 0, 0};

static uint32_t table[LOVASUKU_RECORD * LINES];
static uint32_t members[LINES];
static uint8_t marks[LINES];
static uint32_t listing[LINES];
static double boxes[lovasuku_boxes_room(LINES)];
static double merged[2 * POINTS];
static double spare[2 * POINTS];
static uint64_t workspace[LOVASUKU_LINE_WORKSPACE * LINES];

/* Whether a line of a chain was drawn against it: marks stand in the order of the members. */
static int is_turned(const uint32_t *record, uint32_t line) {
    uint32_t i = record[0];
    while (members[i] != line) {
        i++;
    }
    return marks[i];
}

/* Prints the chain of a record: its lines as its coordinates pass them, and its coordinates. */
static void print_chain(const uint32_t *record) {
    const double *from = record[2] == 0 ? coordinates : merged;
    printf("path");
    for (uint32_t i = record[0]; i < record[0] + record[1]; i++) {
        printf(" %" PRIu32 "%s", listing[i], is_turned(record, listing[i]) ? " (turned)" : "");
    }
    printf("\ncoordinates");
    for (uint32_t i = record[3]; i < record[3] + record[4]; i++) {
        printf(" %g,%g", from[2 * i], from[2 * i + 1]);
    }
    printf("\n");
}

int main(void) {
    int64_t chains =
        lovasuku_build(LOVASUKU_XY, coordinates, 2 * POINTS, counts, LINES, groups, LINES, kinds, LINES, 1.0, 0.0, 0.0,
                       0, 0.0, table, LOVASUKU_RECORD * LINES, members, LINES, marks, LINES, listing, LINES, merged,
                       2 * POINTS, boxes, lovasuku_boxes_room(LINES), spare, 2 * POINTS, workspace,
                       LOVASUKU_LINE_WORKSPACE * LINES);
    if (chains < 0) {
        fprintf(stderr, "refusal %" PRId64 "\n", -chains);
        return 1;
    }
    printf("chains %" PRId64 "\n", chains);
    for (int64_t k = 0; k < chains; k++) {
        if (lovasuku_chain(LOVASUKU_XY, coordinates, 2 * POINTS, merged, 2 * POINTS, table, LOVASUKU_RECORD * LINES,
                           (uint64_t)k) != 0) {
            fprintf(stderr, "chain %" PRId64 " is not there\n", k);
            return 1;
        }
        print_chain(table + LOVASUKU_RECORD * k);
    }
    return 0;
}
