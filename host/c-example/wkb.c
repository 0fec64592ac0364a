/* Reads three roads from WKB records of both byte orders, joins them, and writes the chains as WKB. */
#include <inttypes.h>
#include <stdio.h>

#include "lovasuku.h"

enum { LINES = 3, POINTS = 6, BYTES = 9 * LINES + 16 * POINTS };

/* From 0,0 to 1,0, the least byte first; from 2,0 to 1,0 and from 5,5 to 5,6, the greatest first. */
static const uint8_t store[BYTES] = {
    1, 2, 0, 0, 0, 2, 0, 0, 0, 0, 0, 0, 0, 0, 0, 0,    0, 0, 0, 0, 0, 0, 0,    0, 0,    0, 0, 0, 0, 0, 0,
    0xf0, 0x3f, 0, 0, 0, 0, 0, 0, 0, 0,
    0, 0, 0, 0, 2, 0, 0, 0, 2, 0x40, 0, 0, 0, 0, 0, 0, 0, 0, 0, 0, 0, 0, 0, 0, 0, 0x3f, 0xf0, 0, 0, 0, 0, 0, 0,
    0, 0, 0, 0, 0, 0, 0, 0,
    0, 0, 0, 0, 2, 0, 0, 0, 2, 0x40, 0x14, 0, 0, 0, 0, 0, 0, 0x40, 0x14, 0, 0, 0, 0, 0, 0,
    0x40, 0x14, 0, 0, 0, 0, 0, 0, 0x40, 0x18, 0, 0, 0, 0, 0, 0};
static const uint64_t store_lengths[LINES] = {41, 41, 41};

static double coordinates[2 * POINTS];
static uint32_t counts[LINES];
static uint32_t wkb_type;
static const uint32_t groups[LINES] = {0, 0, 0};
static const uint8_t kinds[LINES] = {0, 0, 0};

static uint32_t table[LOVASUKU_RECORD * LINES];
static uint32_t members[LINES];
static uint8_t marks[LINES];
static uint32_t listing[LINES];
static double boxes[lovasuku_boxes_room(LINES)];
static double merged[2 * POINTS];
static double spare[2 * POINTS];
static uint64_t workspace[LOVASUKU_LINE_WORKSPACE * LINES];

static uint8_t run[BYTES];
static uint64_t lengths[LINES];

/* The answer of a call, which must not be a refusal. */
static int64_t accepted(const char *call, int64_t answer) {
    if (answer < 0) {
        fprintf(stderr, "%s: refusal %" PRId64 "\n", call, -answer);
    }
    return answer;
}

int main(void) {
    int64_t lines = accepted("read", lovasuku_read_wkb(store, BYTES, store_lengths, LINES, coordinates, 2 * POINTS,
                                                       counts, LINES, &wkb_type, 1));
    if (lines < 0) {
        return 1;
    }
    int64_t chains = accepted(
        "build", lovasuku_build(wkb_type, coordinates, 2 * POINTS, counts, LINES, groups, LINES, kinds, LINES, 0.0, 0.0,
                                0.0, 0, 0.0, table, LOVASUKU_RECORD * LINES, members, LINES, marks, LINES, listing,
                                LINES, merged, 2 * POINTS, boxes, lovasuku_boxes_room(LINES), spare, 2 * POINTS,
                                workspace, LOVASUKU_LINE_WORKSPACE * LINES));
    if (chains < 0) {
        return 1;
    }
    int64_t bytes = accepted("write", lovasuku_write_wkb(wkb_type, coordinates, 2 * POINTS, merged, 2 * POINTS, table,
                                                         LOVASUKU_RECORD * LINES, (uint64_t)chains, 1, run, BYTES,
                                                         lengths, LINES));
    if (bytes < 0) {
        return 1;
    }
    printf("%" PRId64 " lines, %" PRId64 " chains, %" PRId64 " bytes\n", lines, chains, bytes);
    const uint8_t *at = run;
    for (int64_t k = 0; k < chains; k++) {
        for (uint64_t i = 0; i < lengths[k]; i++) {
            printf("%02x", *at++);
        }
        printf("\n");
    }
    return 0;
}
