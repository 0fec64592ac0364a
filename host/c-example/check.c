/* Checks chains of three roads that somebody else has made: two that may be accepted, and one that may not. */
#include <inttypes.h>
#include <stdio.h>

#include "lovasuku.h"

enum { LINES = 3, POINTS = 6, CHAINS = 2 };

/* The roads run from 0 to 1.25, from 4.5 to 3.5 and from 3.5 to 1.75. */
static const double coordinates[2 * POINTS] = {0, 0, 1.25, 0, 4.5, 0, 3.5, 0, 3.5, 0, 1.75, 0};
static const uint32_t counts[LINES] = {2, 2, 2};
static const uint32_t groups[LINES] = {0, 0, 0};
static const uint8_t kinds[LINES] = {0, 0, 0};

/* The first road by itself, as it stands in the caller's coordinates, and the others in the order of travel. */
static const uint32_t table[LOVASUKU_RECORD * CHAINS] = {0, 1, 0, 0, 2, 0, 1, 2, 1, 0, 3, 0};
static const uint32_t listing[LINES] = {0, 1, 2};
static const double merged[2 * 3] = {4.5, 0, 3.5, 0, 1.75, 0};

/* All three from end to end, over the gap between 1.75 and 1.25. */
static const uint32_t whole_table[LOVASUKU_RECORD] = {0, 3, 1, 0, 5, 0};
static const uint32_t whole_listing[LINES] = {1, 2, 0};
static const double whole_merged[2 * 5] = {4.5, 0, 3.5, 0, 1.75, 0, 1.25, 0, 0, 0};

static uint64_t workspace[LOVASUKU_LINE_WORKSPACE * LINES];

/* Checks chains under a tolerance, and prints the verdict. */
static int print_verdict(const char *name, double tolerance, const uint32_t *chains, uint64_t k,
                         const uint32_t *in_travel_order, const double *laid, size_t numbers) {
    int64_t answer = lovasuku_check(LOVASUKU_XY, coordinates, 2 * POINTS, counts, LINES, groups, LINES, kinds, LINES,
                                    tolerance, 0.0, 0.0, chains, LOVASUKU_RECORD * (size_t)k, k, in_travel_order, LINES,
                                    laid, numbers, workspace, LOVASUKU_LINE_WORKSPACE * LINES);
    if (answer != 0 && answer != -LOVASUKU_NOT_ACCEPTABLE) {
        fprintf(stderr, "%s: refusal %" PRId64 "\n", name, -answer);
        return 1;
    }
    printf("%s, tolerance %g: %s\n", name, tolerance, answer == 0 ? "accepted" : "not accepted");
    return 0;
}

int main(void) {
    return print_verdict("two chains", 0.0, table, CHAINS, listing, merged, 6) ||
           print_verdict("one chain", 1.0, whole_table, 1, whole_listing, whole_merged, 10) ||
           print_verdict("one chain", 0.0, whole_table, 1, whole_listing, whole_merged, 10);
}
