/* Joins three roads at three tolerances with one exact round: the first call leaves its pieces, and the second finishes
 * them again and again. */
#include <inttypes.h>
#include <stdio.h>

#include "lovasuku.h"

enum { LINES = 3, POINTS = 6 };

/* The roads run from 0 to 1.25, from 4.5 to 3.5 and from 3.5 to 1.75. */
static const double coordinates[2 * POINTS] = {0, 0, 1.25, 0, 4.5, 0, 3.5, 0, 3.5, 0, 1.75, 0};
static const uint32_t counts[LINES] = {2, 2, 2};
static const uint32_t groups[LINES] = {0, 0, 0};
static const uint8_t kinds[LINES] = {0, 0, 0};

/* What the first call leaves. */
static uint32_t pieces[LOVASUKU_PIECE * LINES];
static uint32_t piece_members[LINES];
static uint8_t piece_marks[LINES];
static uint32_t piece_listing[LINES];
static double piece_merged[2 * POINTS];

static uint32_t table[LOVASUKU_RECORD * LINES];
static uint32_t members[LINES];
static uint8_t marks[LINES];
static uint32_t listing[LINES];
static double merged[2 * POINTS];
static double boxes[lovasuku_boxes_room(LINES)];
static uint64_t workspace[LOVASUKU_LINE_WORKSPACE * LINES];

/* Finishes the pieces with a tolerance, and prints the lines of each chain in the order of travel. */
static int print_zoom(int64_t k, double tolerance) {
    int64_t chains = lovasuku_finish(
        LOVASUKU_XY, coordinates, 2 * POINTS, counts, LINES, groups, LINES, kinds, LINES, pieces,
        lovasuku_pieces_room(LINES), piece_members, LINES, piece_marks, LINES, piece_listing, LINES, piece_merged,
        2 * POINTS, (uint64_t)k, tolerance, 0.0, 0.0, 0, 0.0, table, lovasuku_table_room(LINES), members, LINES, marks,
        LINES, listing, LINES, merged, 2 * POINTS, boxes, lovasuku_boxes_room(LINES), workspace,
        lovasuku_workspace_room(LINES));
    if (chains < 0) {
        fprintf(stderr, "finish: refusal %" PRId64 "\n", -chains);
        return 1;
    }
    printf("tolerance %g:", tolerance);
    for (int64_t k = 0; k < chains; k++) {
        const uint32_t *record = table + LOVASUKU_RECORD * k;
        printf(" chain of %" PRIu32 " points, lines", record[4]);
        for (uint32_t i = record[0]; i < record[0] + record[1]; i++) {
            printf(" %" PRIu32, listing[i]);
        }
        printf(k + 1 < chains ? ";" : "\n");
    }
    return 0;
}

int main(void) {
    int64_t k = lovasuku_first(LOVASUKU_XY, coordinates, 2 * POINTS, counts, LINES, groups, LINES, kinds, LINES, 0, 0.0,
                               pieces, lovasuku_pieces_room(LINES), piece_members, LINES, piece_marks, LINES,
                               piece_listing, LINES, piece_merged, 2 * POINTS, workspace,
                               lovasuku_workspace_room(LINES));
    if (k < 0) {
        fprintf(stderr, "first: refusal %" PRId64 "\n", -k);
        return 1;
    }
    printf("pieces %" PRId64 "\n", k);
    return print_zoom(k, 0.0) || print_zoom(k, 0.25) || print_zoom(k, 1.0);
}
