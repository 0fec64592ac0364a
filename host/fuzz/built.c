/* What holds of the answer to every accepted building call, without any oracle. */
#include <string.h>

#include "build.h"

enum { MOST = LOVASUKU_MOST_LINES, FEW = 64 };

static size_t first_of[MOST + 1];

/* First coordinates of the lines. */
static void find_firsts(const struct building *call) {
    first_of[0] = 0;
    for (size_t line = 0; line < call->n; line++) {
        first_of[line + 1] = first_of[line] + call->counts[line];
    }
}

static bool passes(const struct building *call, size_t line) {
    return call->kinds[line] == 1 || call->counts[line] < 2;
}

/* Every line is a member once; those that pass through come last, by position and unturned. */
static void require_members(const struct building *call) {
    static bool met[MOST];
    size_t passing = 0, last = 0;
    memset(met, 0, sizeof met);
    for (size_t i = 0; i < call->n; i++) {
        uint32_t line = call->members[i];
        require(line < call->n && !met[line], "every line is a member once");
        met[line] = true;
        require(call->marks[i] <= 1, "a mark is 0 or 1");
        if (passes(call, line)) {
            require(passing == 0 || line > last, "lines that pass through stand by position");
            require(call->marks[i] == 0, "a line that passes through is unturned");
            passing++;
            last = line;
        } else {
            require(passing == 0, "lines that pass through come last");
        }
    }
}

/* The coordinate is, with its extras, one of the lines' of a chain, bit for bit. */
static bool is_of_a_member(const struct building *call, const uint32_t *record, const uint64_t *point) {
    for (uint32_t i = record[0]; i < record[0] + record[1]; i++) {
        uint32_t line = call->members[i];
        for (size_t k = first_of[line]; k < first_of[line + 1]; k++) {
            if (memcmp(call->coordinates + call->width * k, point, 8 * call->width) == 0) {
                return true;
            }
        }
    }
    return false;
}

/* A loop has at least three coordinates, of which the first and the last agree in x and y bit for bit. */
static void require_loop_mark(const struct building *call, const uint32_t *record) {
    const uint64_t *first = (record[2] == 0 ? call->coordinates : call->merged) + call->width * record[3];
    bool loop = record[4] >= 3 && memcmp(first, first + call->width * (record[4] - 1), 16) == 0;
    require(record[5] == loop, "a loop is marked, and nothing else");
}

static bool same(const uint64_t *a, const uint64_t *b) {
    return double_of(a[0]) == double_of(b[0]) && double_of(a[1]) == double_of(b[1]);
}

/* A chain of several lines: one group, joined lines alone, coordinates of its lines without repeats. */
static void require_merged(const struct building *call, const uint32_t *record) {
    uint32_t group = call->groups[call->members[record[0]]];
    size_t points = 0;
    for (uint32_t i = record[0]; i < record[0] + record[1]; i++) {
        uint32_t line = call->members[i];
        require(call->groups[line] == group && !passes(call, line),
                "a chain has one group and no line that passes through");
        points += call->counts[line];
    }
    require(record[4] >= 1 && record[4] <= points, "a chain has no more coordinates than its lines");
    for (uint32_t k = record[3]; k < record[3] + record[4]; k++) {
        const uint64_t *point = call->merged + call->width * k;
        require(k == record[3] || !same(point - call->width, point),
                "no coordinate of a merged chain repeats the last");
        if (call->n <= FEW) {
            require(is_of_a_member(call, record, point),
                    "every coordinate is one of a member's, bit for bit");
        }
    }
}

/* The marks of the lines of a chain, by their positions; the listing of the chain has its members, each once. */
static void find_marks(const struct building *call, const uint32_t *record, uint8_t *mark) {
    static size_t met[MOST];
    static size_t chain = 0;
    chain++;
    for (uint32_t i = record[0]; i < record[0] + record[1]; i++) {
        mark[call->members[i]] = call->marks[i];
        met[call->members[i]] = chain;
    }
    for (uint32_t i = record[0]; i < record[0] + record[1]; i++) {
        uint32_t line = call->listing[i];
        require(line < call->n && met[line] == chain, "the listing of a chain has its members, each once");
        met[line] = 0;
    }
}

/* The lines in the order of the listing, each backwards where its mark is 1, laid end to end without repeats of x and y,
 * are the chain by ==; after round one alone bit for bit with their extras, and then members and listing are one. */
static void require_laid_end_to_end(const struct building *call, const uint32_t *record) {
    static uint8_t mark[MOST];
    size_t width = call->width, written = 0;
    bool exact = !(call->tolerance > 0);
    const uint64_t *chain = call->merged + width * record[3];
    find_marks(call, record, mark);
    for (uint32_t i = record[0]; i < record[0] + record[1]; i++) {
        uint32_t line = call->listing[i];
        require(!exact || line == call->members[i], "round one alone lists the members as they are");
        for (size_t k = 0; k < call->counts[line]; k++) {
            size_t place = mark[line] ? first_of[line + 1] - 1 - k : first_of[line] + k;
            const uint64_t *point = call->coordinates + width * place;
            if (written > 0 && same(chain + width * (written - 1), point)) {
                continue;
            }
            require(written < record[4] && same(chain + width * written, point),
                    "the lines laid end to end as listing and marks say are the chain");
            require(!exact || memcmp(chain + width * written, point, 8 * width) == 0,
                    "after round one alone bit for bit, with their extras");
            written++;
        }
    }
    require(written == record[4], "the chain is no longer than its lines laid end to end");
}

static const uint64_t *end_of(const struct building *call, size_t end) {
    size_t line = end / 2;
    return call->coordinates + call->width * (end % 2 == 0 ? first_of[line] : first_of[line + 1] - 1);
}

static bool meet(const struct building *call, size_t a, size_t b) {
    return !passes(call, a / 2) && !passes(call, b / 2) && call->groups[a / 2] == call->groups[b / 2] &&
           memcmp(end_of(call, a), end_of(call, b), 16) == 0;
}

/* Without junctions and round two: the lines that hang together at nodes of two ends are the chains. */
static void require_components(const struct building *call, size_t chains) {
    size_t component[FEW], components = call->n;
    for (size_t line = 0; line < call->n; line++) {
        component[line] = line;
    }
    for (size_t a = 0; a < 2 * call->n; a++) {
        size_t others = 0, other = 0;
        for (size_t b = 0; b < 2 * call->n; b++) {
            if (a != b && meet(call, a, b)) {
                others++;
                other = b;
            }
        }
        size_t from = component[a / 2], to = component[other / 2];
        if (others == 1 && from != to) {
            components--;
            for (size_t line = 0; line < call->n; line++) {
                component[line] = component[line] == from ? to : component[line];
            }
        }
    }
    require(components == chains, "there are as many chains as lines hang together");
    for (size_t k = 0; k < chains; k++) {
        const uint32_t *record = call->table + LOVASUKU_RECORD * k;
        for (uint32_t i = 0; i < record[1]; i++) {
            size_t one = call->members[record[0]], another = call->members[record[0] + i];
            require(component[one] == component[another], "the lines of a chain hang together");
        }
    }
}

/* A walk starts at its lowest piece, which it passes from end 0 on: chains ascend by their lowest lines, and
 * these are unturned. Gives the lowest line, or the number of lines for a line that passes through. */
static size_t require_start(const struct building *call, const uint32_t *record, size_t before) {
    uint32_t lowest = record[0];
    for (uint32_t i = record[0]; i < record[0] + record[1]; i++) {
        lowest = call->members[i] < call->members[lowest] ? i : lowest;
    }
    size_t line = call->members[lowest];
    if (passes(call, line)) {
        return call->n;
    }
    require(before == SIZE_MAX || line > before, "chains stand in the order of their lowest lines");
    require(call->marks[lowest] == 0, "the lowest line of a chain is unturned");
    return line;
}

/* Requires a record to follow on what stands before it. Gives the merged coordinates up to its end. */
static size_t require_record(const struct building *call, const uint32_t *record, size_t members,
                             size_t merged) {
    require(record[0] == members && record[1] >= 1, "first members add up");
    require(members + record[1] <= call->n, "a chain has members");
    require(record[2] == (record[1] > 1), "a chain of several lines is merged, a lone line is not");
    if (record[2] == 0) {
        uint32_t line = call->members[record[0]];
        require(record[3] == first_of[line] && record[4] == call->counts[line],
                "a lone line is its own coordinates");
        require(call->listing[record[0]] == line && call->marks[record[0]] == 0, "a lone line lists itself, unturned");
        return merged;
    }
    require(record[3] == merged && merged + record[4] <= call->c, "first coordinates add up");
    require_merged(call, record);
    require_laid_end_to_end(call, record);
    return merged + record[4];
}

size_t require_built(const struct building *call, size_t chains) {
    size_t members = 0, merged = 0, start = SIZE_MAX;
    require(chains <= call->n, "there are no more chains than lines");
    find_firsts(call);
    require_members(call);
    for (size_t k = 0; k < chains; k++) {
        const uint32_t *record = call->table + LOVASUKU_RECORD * k;
        merged = require_record(call, record, members, merged);
        require_loop_mark(call, record);
        start = require_start(call, record, start);
        members += record[1];
    }
    require(members == call->n, "every member is in a chain");
    if (call->n <= FEW && call->switch_on == 0 && !(call->tolerance > 0)) {
        require_components(call, chains);
    }
    return call->width * merged;
}
