/* Which chains made elsewhere are acceptable: a judge of the harness's own. */
#include <math.h>
#include <string.h>

#include "delivery.h"

static size_t first_of[MOST_DELIVERED_LINES + 1];

static bool is_place(uint64_t word) {
    return isfinite(double_of(word));
}

/* The refusals of lines and corner that a delivery of few lines can have, or 0. */
static int refusal_of_lines(const struct delivery *d) {
    if (d->width == 0) {
        return LOVASUKU_BAD_TYPE;
    }
    if (d->groups_length != d->n || d->kinds_length != d->n) {
        return LOVASUKU_TABLES_DIFFER;
    }
    uint64_t points = 0;
    for (size_t line = 0; line < d->n; line++) {
        if (d->kinds[line] > 1) {
            return LOVASUKU_MARK_ABOVE_ONE;
        }
        first_of[line] = points;
        points += d->counts[line];
    }
    first_of[d->n] = points;
    if (points * d->width != d->numbers) {
        return LOVASUKU_COUNTS_DO_NOT_ADD_UP;
    }
    for (size_t at = 0; at < d->numbers; at += d->width) {
        if (!is_place(d->coordinates[at]) || !is_place(d->coordinates[at + 1])) {
            return LOVASUKU_NO_PLACE;
        }
    }
    return isfinite(d->origin_x) && isfinite(d->origin_y) ? 0 : LOVASUKU_BAD_ORIGIN;
}

static bool is_bad_record(const struct delivery *d, uint64_t k) {
    if (!chain_is_there(d->width, d->numbers, d->merged_length, d->table, d->table_length, k)) {
        return true;
    }
    const uint32_t *record = d->table + LOVASUKU_RECORD * k;
    uint64_t last = (uint64_t)record[0] + record[1];
    if (last > d->listing_length) {
        return true;
    }
    for (uint64_t i = record[0]; i < last; i++) {
        if (d->listing[i] >= d->n) {
            return true;
        }
    }
    return false;
}

static bool every_line_stands_once(const struct delivery *d) {
    size_t times[MOST_DELIVERED_LINES] = {0};
    for (uint64_t k = 0; k < d->k; k++) {
        const uint32_t *record = d->table + LOVASUKU_RECORD * k;
        for (uint32_t i = 0; i < record[1]; i++) {
            times[d->listing[record[0] + i]]++;
        }
    }
    for (size_t line = 0; line < d->n; line++) {
        if (times[line] != 1) {
            return false;
        }
    }
    return true;
}

/* The cell of a number, by the rules: the floor of (number - origin) / tolerance within 64 bits, 0 for NaN. */
static int64_t cell(double number, double origin, double tolerance) {
    double floor_of = floor((number - origin) / tolerance);
    if (isnan(floor_of)) {
        return 0;
    }
    return floor_of >= 0x1p63 ? INT64_MAX : floor_of < -0x1p63 ? INT64_MIN : (int64_t)floor_of;
}

static bool meet(const struct delivery *d, const uint64_t *a, const uint64_t *b) {
    if (a[0] == b[0] && a[1] == b[1]) {
        return true;
    }
    double t = d->tolerance;
    return t > 0 && cell(double_of(a[0]), d->origin_x, t) == cell(double_of(b[0]), d->origin_x, t) &&
           cell(double_of(a[1]), d->origin_y, t) == cell(double_of(b[1]), d->origin_y, t);
}

/* Coordinate i of a line that is travelled as it was drawn, or turned. */
static const uint64_t *travelled(const struct delivery *d, uint32_t line, bool turned, size_t i) {
    size_t place = turned ? first_of[line + 1] - 1 - i : first_of[line] + i;
    return d->coordinates + d->width * place;
}

static bool same(const uint64_t *a, const uint64_t *b) {
    return double_of(a[0]) == double_of(b[0]) && double_of(a[1]) == double_of(b[1]);
}

/* The lines in these directions meet one after another, and laid end to end without repeats they are the chain. */
static bool suits(const struct delivery *d, const uint32_t *listed, uint32_t lines, const uint64_t *chain, size_t points,
                  uint32_t turned) {
    const uint64_t *last = NULL, *left = NULL;
    size_t written = 0;
    for (uint32_t i = 0; i < lines; i++) {
        bool way = turned >> i & 1;
        size_t count = d->counts[listed[i]];
        if (left != NULL && !meet(d, left, travelled(d, listed[i], way, 0))) {
            return false;
        }
        for (size_t j = 0; j < count; j++) {
            const uint64_t *point = travelled(d, listed[i], way, j);
            if (last != NULL && same(last, point)) {
                continue;
            }
            if (written == points || !same(chain + d->width * written, point)) {
                return false;
            }
            written++;
            last = point;
        }
        left = travelled(d, listed[i], way, count - 1);
    }
    return written == points;
}

static bool chain_fits(const struct delivery *d, const uint32_t *record) {
    const uint32_t *listed = d->listing + record[0];
    const uint64_t *chain = (record[2] == 0 ? d->coordinates : d->merged) + d->width * record[3];
    if (record[1] == 1) {
        uint32_t count = d->counts[*listed];
        return record[4] == count &&
               (count == 0 || memcmp(chain, travelled(d, *listed, false, 0), 8 * d->width * count) == 0);
    }
    for (uint32_t i = 0; i < record[1]; i++) {
        bool passes = d->kinds[listed[i]] == 1 || d->counts[listed[i]] < 2;
        if (passes || d->groups[listed[i]] != d->groups[listed[0]]) {
            return false;
        }
    }
    for (uint32_t turned = 0; turned < 1u << record[1]; turned++) {
        if (suits(d, listed, record[1], chain, record[4], turned)) {
            return true;
        }
    }
    return false;
}

int refusal_of_delivery(const struct delivery *d) {
    int lines = refusal_of_lines(d);
    if (lines != 0) {
        return lines;
    }
    if (d->workspace < lovasuku_workspace_room(d->n)) {
        return LOVASUKU_ROOM_TOO_SHORT;
    }
    for (uint64_t k = 0; k < d->k; k++) {
        if (is_bad_record(d, k)) {
            return LOVASUKU_BAD_RECORD;
        }
    }
    if (!every_line_stands_once(d)) {
        return LOVASUKU_NOT_ACCEPTABLE;
    }
    for (uint64_t k = 0; k < d->k; k++) {
        if (!chain_fits(d, d->table + LOVASUKU_RECORD * k)) {
            return LOVASUKU_NOT_ACCEPTABLE;
        }
    }
    return 0;
}
