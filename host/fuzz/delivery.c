/* Deliveries of chains made of bytes: lines of few points, chains of them in directions that the bytes choose, and
 * whatever else the bytes say. */
#include <string.h>

#include "build.h"
#include "delivery.h"

enum { WIDEST = 4, MOST_NUMBERS = WIDEST * (MOST_DELIVERED_POINTS + 2) };

static struct slice coordinates, counts, groups, kinds, table, listing, merged, workspace;

/* A delivery in the making. */
struct making {
    uint64_t words[MOST_NUMBERS], laid[MOST_NUMBERS];
    uint32_t count[MOST_DELIVERED_LINES], group[MOST_DELIVERED_LINES];
    uint8_t kind[MOST_DELIVERED_LINES];
    uint32_t listed[2 * MOST_DELIVERED_LINES], record[LOVASUKU_RECORD * MOST_CHAINS];
    size_t width, n, points, laid_points, listed_lines, chains;
};

static void make_slices(void) {
    if (workspace.capacity != 0) {
        return;
    }
    make_input(&coordinates, MOST_NUMBERS * sizeof(double));
    make_input(&counts, MOST_DELIVERED_LINES * sizeof(uint32_t));
    make_input(&groups, (MOST_DELIVERED_LINES + 1) * sizeof(uint32_t));
    make_input(&kinds, MOST_DELIVERED_LINES + 1);
    make_input(&table, (LOVASUKU_RECORD * MOST_CHAINS + 1) * sizeof(uint32_t));
    make_input(&listing, (2 * MOST_DELIVERED_LINES + 1) * sizeof(uint32_t));
    make_input(&merged, MOST_NUMBERS * sizeof(double));
    make_room(&workspace, (lovasuku_workspace_room(LOVASUKU_MOST_LINES) + 1) * sizeof(uint64_t));
}

/* Lines of few points, most of them plain, of one group and of finite numbers. */
static void make_lines(struct bytes *bytes, struct making *it) {
    it->n = next_below(bytes, MOST_DELIVERED_LINES + 1);
    for (size_t line = 0; line < it->n; line++) {
        static const uint8_t sizes[] = {2, 2, 2, 3, 3, 4, 1, 0};
        uint8_t flags = next_byte(bytes);
        it->count[line] = sizes[flags % 8];
        it->group[line] = flags >= 0xf0;
        it->kind[line] = flags < 0xe0 ? 0 : flags < 0xff ? 1 : 2;
        for (size_t i = 0; i < it->width * it->count[line]; i++) {
            uint64_t word = next_word(bytes);
            it->words[it->width * it->points + i] = word;
        }
        it->points += it->count[line];
    }
}

static size_t first_point(const struct making *it, size_t line) {
    size_t first = 0;
    for (size_t i = 0; i < line; i++) {
        first += it->count[i];
    }
    return first;
}

/* Lays a line behind what is laid since a point, without repeats. */
static void lay(struct making *it, size_t line, bool turned, size_t since) {
    size_t first = first_point(it, line), count = it->count[line];
    for (size_t i = 0; i < count && it->laid_points < MOST_DELIVERED_POINTS; i++) {
        const uint64_t *point = it->words + it->width * (turned ? first + count - 1 - i : first + i);
        uint64_t *end = it->laid + it->width * it->laid_points;
        bool repeats = it->laid_points > since && double_of(end[-(ptrdiff_t)it->width]) == double_of(point[0]) &&
                       double_of(end[1 - (ptrdiff_t)it->width]) == double_of(point[1]);
        if (!repeats) {
            memcpy(end, point, 8 * it->width);
            it->laid_points++;
        }
    }
}

/* A chain of the next lines of an order, in directions of the bytes; a lone line as it was drawn, in either source. */
static void make_chain(struct bytes *bytes, struct making *it, const uint8_t *order, size_t first, size_t lines) {
    uint32_t *record = it->record + LOVASUKU_RECORD * it->chains++;
    size_t since = it->laid_points;
    uint8_t flags = next_byte(bytes), ways = next_byte(bytes);
    record[0] = (uint32_t)it->listed_lines;
    record[1] = (uint32_t)lines;
    record[2] = 1;
    record[3] = (uint32_t)since;
    for (size_t i = 0; i < lines; i++) {
        it->listed[it->listed_lines++] = order[first + i];
        if (lines == 1) {
            size_t numbers = it->width * it->count[order[first]];
            memcpy(it->laid + it->width * since, it->words + it->width * first_point(it, order[first]), 8 * numbers);
            it->laid_points += it->count[order[first]];
        } else {
            lay(it, order[first + i], ways >> i % 8 & 1, since);
        }
    }
    record[4] = (uint32_t)(it->laid_points - since);
    record[5] = flags;
    if (lines == 1 && flags % 2 == 0) {
        record[2] = 0;
        record[3] = (uint32_t)first_point(it, order[first]);
    }
}

/* All lines in chains, in an order of the bytes. */
static void make_chains(struct bytes *bytes, struct making *it) {
    uint8_t order[MOST_DELIVERED_LINES];
    for (size_t i = 0; i < it->n; i++) {
        size_t at = next_byte(bytes) < 0x40 ? next_below(bytes, i + 1) : i;
        memmove(order + at + 1, order + at, i - at);
        order[at] = (uint8_t)i;
    }
    for (size_t first = 0; first < it->n;) {
        size_t left = it->n - first, lines = 1 + next_below(bytes, left);
        make_chain(bytes, it, order, first, lines);
        first += lines;
    }
}

/* A number of a table or a listing that is another, if the bytes say so. */
static void damage_numbers(struct bytes *bytes, uint32_t *numbers, size_t count) {
    static const uint64_t edges[] = {0x7fffffff, 0x80000000, 0xffffffff, 0xfffffffe, 2, 0};
    uint8_t choice = next_byte(bytes);
    if (count > 0 && choice >= RARELY) {
        numbers[next_below(bytes, count)] =
            choice < 0xe0 ? (uint32_t)next_below(bytes, 16)
                          : (uint32_t)rare_number(bytes, next_byte(bytes), edges, COUNT(edges), 4);
    }
}

/* Another word in a chain, if the bytes say so: a zero's sign, a bit, or any. */
static void damage_words(struct bytes *bytes, struct making *it) {
    uint8_t choice = next_byte(bytes);
    size_t numbers = it->width * it->laid_points;
    if (numbers == 0 || choice < 0x80) {
        return;
    }
    uint64_t *word = it->laid + next_below(bytes, numbers);
    *word = choice < 0xa0 ? *word ^ (uint64_t)1 << 63 : choice < 0xc0 ? *word ^ 1 : next_word(bytes);
}

static void fill(struct slice *slice, const void *from, size_t bytes) {
    lend_input(slice, bytes);
    memcpy(slice->fill, from, bytes);
}

/* Lends what was made, at times a little shorter or longer. */
static struct delivery lend(struct bytes *bytes, struct making *it, uint32_t wkb_type) {
    struct delivery d = {0};
    d.wkb_type = wkb_type;
    d.width = width_of(wkb_type);
    d.n = it->n;
    d.numbers = next_length(bytes, it->width * it->points);
    d.groups_length = next_length(bytes, it->n);
    d.kinds_length = next_length(bytes, it->n);
    d.table_length = next_length(bytes, LOVASUKU_RECORD * it->chains);
    d.listing_length = next_length(bytes, it->listed_lines);
    d.merged_length = next_length(bytes, it->width * it->laid_points);
    d.workspace = next_length(bytes, lovasuku_workspace_room(it->n));
    d.k = next_byte(bytes) < 0xfc ? it->chains : next_byte(bytes) % (MOST_CHAINS + 1);
    d.tolerance = double_of(next_word(bytes));
    if (next_byte(bytes) % 2 == 1) {
        d.origin_x = double_of(next_word(bytes));
        d.origin_y = double_of(next_word(bytes));
    }
    fill(&coordinates, it->words, 8 * d.numbers);
    fill(&counts, it->count, 4 * d.n);
    fill(&groups, it->group, 4 * d.groups_length);
    fill(&kinds, it->kind, d.kinds_length);
    fill(&table, it->record, 4 * d.table_length);
    fill(&listing, it->listed, 4 * d.listing_length);
    fill(&merged, it->laid, 8 * d.merged_length);
    d.coordinates = (const uint64_t *)coordinates.fill;
    d.counts = (const uint32_t *)counts.fill;
    d.groups = (const uint32_t *)groups.fill;
    d.kinds = kinds.fill;
    d.table = (const uint32_t *)table.fill;
    d.listing = (const uint32_t *)listing.fill;
    d.merged = (const uint64_t *)merged.fill;
    return d;
}

void fuzz_check(struct bytes *bytes) {
    static struct making it;
    make_slices();
    memset(&it, 0, sizeof it);
    uint32_t wkb_type = next_type(bytes);
    it.width = width_of(wkb_type) == 0 ? 2 : width_of(wkb_type);
    make_lines(bytes, &it);
    make_chains(bytes, &it);
    damage_numbers(bytes, it.record, LOVASUKU_RECORD * it.chains);
    damage_numbers(bytes, it.listed, it.listed_lines);
    damage_words(bytes, &it);
    struct delivery d = lend(bytes, &it, wkb_type);
    lend_room(&workspace, 8 * d.workspace, next_byte(bytes));
    int64_t answer = lovasuku_check(d.wkb_type, coordinates.lent, d.numbers, counts.lent, d.n, groups.lent,
                                    d.groups_length, kinds.lent, d.kinds_length, d.tolerance, d.origin_x, d.origin_y,
                                    table.lent, d.table_length, d.k, listing.lent, d.listing_length, merged.lent,
                                    d.merged_length, workspace.lent, d.workspace);
    require(answer == -refusal_of_delivery(&d), "chains made elsewhere are judged as the request says");
    seen(3072 + (unsigned)(answer == 0 ? 32 + it.chains : -answer));
    if (answer == 0) {
        require_cleared(&workspace, 8 * lovasuku_workspace_room(d.n), "workspace is zero and as before beyond");
    } else {
        require_untouched_from(&workspace, 0, "a refused call leaves the workspace as it was");
    }
}

void require_acceptable(const struct building *call, size_t numbers, size_t chains, size_t merged_numbers) {
    make_slices();
    lend_room(&workspace, 8 * lovasuku_workspace_room(call->n), 0x5a);
    int64_t answer = lovasuku_check(
        call->wkb_type, (const double *)call->coordinates, numbers, call->counts, call->n, call->groups, call->n,
        call->kinds, call->n, call->tolerance, call->origin_x, call->origin_y, call->table, LOVASUKU_RECORD * chains,
        chains, call->listing, call->n, (const double *)call->merged, merged_numbers, workspace.lent,
        lovasuku_workspace_room(call->n));
    require(answer == 0, "what was built is acceptable");
}
