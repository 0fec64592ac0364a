/* Which pieces 19 forbids: a judge of the harness's own, clause by clause. */
#include <math.h>
#include <string.h>

#include "zoom.h"

enum { FEW = 64 };

static bool passes(const struct building *call, size_t line) {
    return call->kinds[line] == 1 || call->counts[line] < 2;
}

static size_t first_of(const struct building *call, size_t line) {
    size_t first = 0;
    for (size_t i = 0; i < line; i++) {
        first += call->counts[i];
    }
    return first;
}

/* A record reaches outside its slices. */
static bool leaves(const struct building *call, const struct pieces *p, const uint32_t *record) {
    uint64_t last = (uint64_t)record[0] + record[1], end = ((uint64_t)record[3] + record[4]) * call->width;
    size_t named = record[2] == 0 ? call->width * call->c : p->merged_length;
    return last > p->members_length || last > p->marks_length || last > p->listing_length || end > named;
}

/* The piece of one line is that line's own place, and one of several is in source 1. */
static bool is_in_its_source(const struct building *call, const struct pieces *p, const uint32_t *record) {
    if (record[1] > 1) {
        return record[2] == 1;
    }
    uint32_t line = p->members[record[0]];
    return line < call->n && record[2] == 0 && record[3] == first_of(call, line) && record[4] == call->counts[line];
}

/* How often a line stands in a part. */
static size_t times(const uint32_t *part, uint32_t count, uint32_t line) {
    size_t sum = 0;
    for (uint32_t i = 0; i < count; i++) {
        sum += part[i] == line;
    }
    return sum;
}

/* Members and listing of a piece name the same lines, of one group. */
static bool names_its_lines(const struct building *call, const struct pieces *p, const uint32_t *record) {
    const uint32_t *members = p->members + record[0], *listing = p->listing + record[0];
    for (uint32_t i = 0; i < record[1]; i++) {
        if (members[i] >= call->n || call->groups[members[i]] != call->groups[members[0]]) {
            return false;
        }
        if (times(listing, record[1], members[i]) != times(members, record[1], members[i])) {
            return false;
        }
    }
    return true;
}

/* Its marks are 0 or 1, and its coordinates are places. */
static bool has_marks_and_places(const struct building *call, const struct pieces *p, const uint32_t *record) {
    for (uint32_t i = 0; i < record[1]; i++) {
        if (p->marks[record[0] + i] > 1) {
            return false;
        }
    }
    const uint64_t *point = (record[2] == 0 ? call->coordinates : p->merged) + call->width * record[3];
    for (uint32_t i = 0; i < record[4]; i++, point += call->width) {
        if (!isfinite(double_of(point[0])) || !isfinite(double_of(point[1]))) {
            return false;
        }
    }
    return true;
}

/* Every line that does not pass through stands once among all members, or in all of the listing, and no other does. */
static bool stands_once(const struct building *call, const struct pieces *p, const uint32_t *of) {
    size_t sum[FEW] = {0};
    for (uint64_t k = 0; k < p->k; k++) {
        const uint32_t *record = p->records + LOVASUKU_PIECE * k;
        for (uint32_t i = 0; i < record[1]; i++) {
            uint32_t line = of[record[0] + i];
            if (line >= call->n || passes(call, line)) {
                return false;
            }
            sum[line]++;
        }
    }
    for (size_t line = 0; line < call->n; line++) {
        if (sum[line] != !passes(call, line)) {
            return false;
        }
    }
    return true;
}

bool pieces_are_bad(const struct building *call, const struct pieces *p) {
    if (p->k > p->records_length / LOVASUKU_PIECE) {
        return true;
    }
    uint64_t points = 0;
    for (uint64_t k = 0; k < p->k; k++) {
        const uint32_t *record = p->records + LOVASUKU_PIECE * k;
        points += record[4];
        if (record[1] == 0 || record[4] == 0 || leaves(call, p, record) || !is_in_its_source(call, p, record) ||
            !names_its_lines(call, p, record) || !has_marks_and_places(call, p, record)) {
            return true;
        }
    }
    return points > call->c || !stands_once(call, p, p->members) || !stands_once(call, p, p->listing);
}
