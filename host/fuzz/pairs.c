/* Pairing calls: the refusals, the rooms, that the pairs are the only ones which the rules allow, and why two ends are
 * joined or not. */
#include <math.h>
#include <string.h>

#include "check.h"

enum { MOST = LOVASUKU_MOST_ENDS + 2, SMALL = 80, MEDIUM = 400 };

static struct slice present, directions, pieces, pairs, workspace;

/* A call, with the lengths of what is lent. */
struct pairing {
    size_t d, present, directions, pairs, workspace;
    double limit;
    uint32_t offset;
    unsigned char dirt;
    uint32_t asked[2];
};

typedef int64_t offset_route(const uint8_t *, size_t, const double *, size_t, const uint32_t *, size_t, uint32_t,
                             uint32_t *, size_t, uint64_t *, size_t);
typedef int64_t route(const uint8_t *, size_t, const double *, size_t, const uint32_t *, size_t, double,
                      uint32_t *, size_t, uint64_t *, size_t);

static void make_slices(void) {
    if (workspace.capacity == 0) {
        make_input(&present, MOST);
        make_input(&directions, 2 * MOST * sizeof(double));
        make_input(&pieces, MOST * sizeof(uint32_t));
        make_room(&pairs, MEDIUM * sizeof(uint32_t));
        make_room(&workspace, LOVASUKU_END_WORKSPACE * MEDIUM * sizeof(uint64_t));
    }
}

static struct pairing next_pairing(struct bytes *bytes) {
    struct pairing call = {0};
    uint8_t size = next_byte(bytes);
    call.d = size < 0xfe ? size % SMALL : size == 0xfe ? next_below(bytes, MEDIUM) : LOVASUKU_MOST_ENDS + 1;
    call.limit = next_limit(bytes);
    call.offset = next_offset(bytes);
    call.dirt = next_byte(bytes);
    for (int k = 0; k < 2; k++) {
        uint8_t end = next_byte(bytes);
        call.asked[k] = end < 0xfe ? end % SMALL : end == 0xfe ? (uint32_t)call.d : UINT32_MAX;
    }
    call.present = next_length(bytes, call.d);
    call.directions = next_length(bytes, 2 * call.d);
    size_t room = call.d > LOVASUKU_MOST_ENDS ? SMALL : call.d;
    call.pairs = next_length(bytes, room);
    call.workspace = next_length(bytes, LOVASUKU_END_WORKSPACE * room);
    return call;
}

/* Fills the tables: from one end to the next a piece goes on or a new one begins. */
static void fill_ends(struct bytes *bytes, const struct pairing *call) {
    lend_input(&present, call->present);
    lend_input(&directions, call->directions * sizeof(double));
    lend_input(&pieces, call->d * sizeof(uint32_t));
    memset(present.fill, 1, present.bytes);
    memset(directions.fill, 0, directions.bytes);
    uint32_t *piece = (uint32_t *)pieces.fill;
    for (size_t i = 0; i < call->d; i++) {
        piece[i] = (uint32_t)i;
    }
    for (size_t i = 0; i < call->d && bytes->left > 0; i++) {
        uint8_t flags = next_byte(bytes);
        uint64_t way[2] = {next_word(bytes), next_word(bytes)};
        if (flags < 0x60 && i > 0) {
            piece[i] = piece[flags % i];
        }
        if (i < call->present) {
            present.fill[i] = flags == 0xff ? 2 : (flags & 3) != 0;
        }
        if (2 * i + 2 <= call->directions) {
            memcpy(directions.fill + 16 * i, way, sizeof way);
        }
    }
}

static bool any_mark_above_one(const struct pairing *call) {
    for (size_t i = 0; i < call->present; i++) {
        if (present.fill[i] > 1) {
            return true;
        }
    }
    return false;
}

/* Every piece number is below d: the harness numbers pieces by an end of theirs. */
static bool piece_too_often(const struct pairing *call) {
    static uint8_t counts[MOST];
    const uint32_t *piece = (const uint32_t *)pieces.fill;
    memset(counts, 0, call->d);
    for (size_t i = 0; i < call->d; i++) {
        if (counts[piece[i]]++ == 2) {
            return true;
        }
    }
    return false;
}

static bool any_wild(const struct pairing *call) {
    const double *way = (const double *)directions.fill;
    for (size_t i = 0; i < call->d; i++) {
        if (present.fill[i] == 1 && !(isfinite(way[2 * i]) && isfinite(way[2 * i + 1]))) {
            return true;
        }
    }
    return false;
}

/* The number of the first refusal that applies, or 0. `limit` is that of the limit or of the offset in its place. */
static int refusal(const struct pairing *call, bool alone, int limit) {
    if (call->d > LOVASUKU_MOST_ENDS) {
        return LOVASUKU_TOO_MANY;
    }
    if (call->present != call->d || call->directions != 2 * call->d) {
        return LOVASUKU_TABLES_DIFFER;
    }
    if (any_mark_above_one(call)) {
        return LOVASUKU_MARK_ABOVE_ONE;
    }
    if (limit != 0) {
        return limit;
    }
    if (call->pairs < call->d || call->workspace < LOVASUKU_END_WORKSPACE * call->d) {
        return LOVASUKU_ROOM_TOO_SHORT;
    }
    if (piece_too_often(call)) {
        return LOVASUKU_PIECE_TOO_OFTEN;
    }
    return alone && any_wild(call) ? LOVASUKU_NOT_FINITE : 0;
}

static void lend_rooms(const struct pairing *call) {
    lend_room(&pairs, call->pairs * sizeof(uint32_t), call->dirt);
    lend_room(&workspace, call->workspace * sizeof(uint64_t), call->dirt);
}

static void require_refused(void) {
    require_untouched_from(&pairs, 0, "a refused call leaves pairs as they were");
    require_untouched_from(&workspace, 0, "a refused call leaves workspace as it was");
}

static void require_accepted(const struct pairing *call, size_t count) {
    require_untouched_from(&pairs, 8 * count, "pairs are as before beyond what is written");
    require_cleared(&workspace, 8 * LOVASUKU_END_WORKSPACE * call->d,
                    "workspace is zero and as before beyond");
}

/* Requires the answer and the rooms to be what the form alone demands. */
static int64_t require_form(const struct pairing *call, int64_t answer, int expected) {
    require(expected == 0 ? answer >= 0 : answer == -expected, "the first refusal that applies is given");
    if (answer < 0) {
        require_refused();
        return answer;
    }
    require((size_t)answer <= call->d / 2, "no more pairs than ends");
    require_accepted(call, (size_t)answer);
    return answer;
}

/* Makes the call by a route. */
static int64_t call_route(const struct pairing *call, route *by, bool alone, double limit) {
    lend_rooms(call);
    int64_t answer = by(present.lent, call->present, directions.lent, call->directions, pieces.lent, call->d,
                        limit, pairs.lent, call->pairs, workspace.lent, call->workspace);
    return require_form(call, answer, refusal(call, alone, limit_is_bad(limit) ? LOVASUKU_BAD_LIMIT : 0));
}

/* The same with the offset in the limit's place. */
static int64_t call_by_offset(const struct pairing *call, offset_route *by, bool alone) {
    lend_rooms(call);
    int64_t answer = by(present.lent, call->present, directions.lent, call->directions, pieces.lent, call->d,
                        call->offset, pairs.lent, call->pairs, workspace.lent, call->workspace);
    int bad = call->offset > LOVASUKU_MOST_OFFSET ? LOVASUKU_BAD_OFFSET : 0;
    return require_form(call, answer, refusal(call, alone, bad));
}

static double measure(size_t i, size_t j) {
    const double *way = (const double *)directions.fill;
    double dot = way[2 * i] * way[2 * j] + way[2 * i + 1] * way[2 * j + 1];
    return dot < -1.0 ? -1.0 : dot > 1.0 ? 1.0 : dot;
}

/* True where pair i, j comes before pair a, b: by measure, then i, then j. */
static bool before(size_t i, size_t j, size_t a, size_t b) {
    double one = measure(i, j), other = measure(a, b);
    if (one != other) {
        return one < other;
    }
    return i != a ? i < a : j < b;
}

static bool qualifies(size_t i, size_t j, double limit) {
    const uint32_t *piece = (const uint32_t *)pieces.fill;
    return present.fill[i] == 1 && present.fill[j] == 1 && piece[i] != piece[j] && measure(i, j) <= limit;
}

/* Requires the pairs to be in order, to qualify and to share no end, and every other qualifying pair to share
 * an end with one that comes before it. Only one list of pairs is so. `partner` gets each end's partner, or
 * the end itself. */
static void require_selected(const uint32_t *pair, size_t count, size_t d, double limit, uint32_t *partner) {
    for (size_t i = 0; i < d; i++) {
        partner[i] = (uint32_t)i;
    }
    for (size_t p = 0; p < count; p++) {
        size_t i = pair[2 * p], j = pair[2 * p + 1];
        require(i < j && j < d && qualifies(i, j, limit), "a selected pair qualifies");
        require(partner[i] == i && partner[j] == j, "no end is in two pairs");
        require(p == 0 || before(pair[2 * p - 2], pair[2 * p - 1], i, j), "pairs stand in their order");
        partner[i] = (uint32_t)j;
        partner[j] = (uint32_t)i;
    }
    for (size_t j = 0; j < d; j++) {
        for (size_t i = 0; i < j; i++) {
            if (!qualifies(i, j, limit) || partner[i] == j) {
                continue;
            }
            size_t a = partner[i], b = partner[j];
            bool by_i = a != i && before(a < i ? a : i, a < i ? i : a, i, j);
            bool by_j = b != j && before(b < j ? b : j, b < j ? j : b, i, j);
            require(by_i || by_j, "a pair that was passed over has an end in an earlier one");
        }
    }
}

/* Requires another route, or the same one under a wider limit, to begin with the given pairs. */
static void require_begins(const uint32_t *kept, int64_t count, int64_t answer, bool same) {
    require(same ? answer == count : answer >= count, "routes agree, and a wider limit takes no pair away");
    require(memcmp(kept, pairs.fill, 8 * (size_t)count) == 0,
            "routes agree, and a wider limit undoes no pair");
}

/* The reason of two ends, where `count` pairs are selected: the first that applies. */
static int64_t reason(const struct pairing *call, size_t i, size_t j, const uint32_t *pair, size_t count) {
    const uint32_t *piece = (const uint32_t *)pieces.fill;
    size_t earliest = count;
    for (size_t p = count; p-- > 0;) {
        size_t a = pair[2 * p], b = pair[2 * p + 1];
        if ((a == i && b == j) || (a == j && b == i)) {
            return LOVASUKU_SELECTED;
        }
        earliest = a == i || a == j || b == i || b == j ? p : earliest;
    }
    if (piece[i] == piece[j]) {
        return LOVASUKU_SAME_PIECE;
    }
    if (present.fill[i] != 1 || present.fill[j] != 1) {
        return LOVASUKU_ABSENT_DIRECTION;
    }
    if (!(measure(i, j) <= call->limit)) {
        return LOVASUKU_NOT_QUALIFYING;
    }
    require(earliest < count, "a pair that was passed over has an end in a selected one");
    return LOVASUKU_BLOCKED + (int64_t)earliest;
}

/* Asks about two ends, and requires the refusal or the reason, and the rooms as the plain route leaves them: `plain` is
 * its answer, and `kept` are its pairs. */
static void ask_why(const struct pairing *call, int64_t plain, const uint32_t *kept) {
    uint32_t i = call->asked[0], j = call->asked[1];
    bool none = i >= call->d || j >= call->d || i == j;
    lend_rooms(call);
    int64_t answer = lovasuku_why(present.lent, call->present, directions.lent, call->directions, pieces.lent, call->d,
                                  call->limit, i, j, pairs.lent, call->pairs, workspace.lent, call->workspace);
    if (plain < 0 || none) {
        require(answer == (plain < 0 ? plain : -LOVASUKU_NO_TWO_ENDS), "the plain route's refusal, then 26");
        require_refused();
        return;
    }
    size_t count = (size_t)plain;
    require(answer == reason(call, i, j, kept, count), "the first reason that applies is given");
    require(memcmp(kept, pairs.fill, 8 * count) == 0, "the pairs are the plain route's");
    require_accepted(call, count);
    seen(160 + (unsigned)(answer < 32 ? answer : 32));
}

/* Requires the calls with the offset to select what the plain route does with the offset's limit. */
static void require_by_offset(const struct pairing *call) {
    static uint32_t kept[MEDIUM];
    int64_t plain = call_by_offset(call, lovasuku_pairs_plain_offset, false);
    if (plain < 0) {
        require(call_by_offset(call, lovasuku_pairs_indexed_offset, true) == plain, "routes refuse alike");
        require(call_by_offset(call, lovasuku_pairs_chosen_offset, false) == plain, "routes refuse alike");
        seen(900 + (unsigned)-plain);
        return;
    }
    memcpy(kept, pairs.fill, 8 * (size_t)plain);
    double limit = limit_of_offset(call->offset);
    require_begins(kept, plain, call_route(call, lovasuku_pairs_plain, false, limit), true);
    require_begins(kept, plain, call_by_offset(call, lovasuku_pairs_chosen_offset, false), true);
    int64_t indexed = call_by_offset(call, lovasuku_pairs_indexed_offset, true);
    if (indexed >= 0) {
        require_begins(kept, plain, indexed, true);
    }
    struct pairing wider = *call;
    wider.offset = LOVASUKU_MOST_OFFSET;
    require_begins(kept, plain, call_by_offset(&wider, lovasuku_pairs_chosen_offset, false), false);
}

void fuzz_pairs(struct bytes *bytes) {
    static uint32_t kept[MEDIUM], partner[MEDIUM];
    make_slices();
    struct pairing call = next_pairing(bytes);
    fill_ends(bytes, &call);
    require_by_offset(&call);
    int64_t count = call_route(&call, lovasuku_pairs_plain, false, call.limit);
    if (count < 0) {
        require(call_route(&call, lovasuku_pairs_indexed, true, call.limit) == count, "routes refuse alike");
        require(call_route(&call, lovasuku_pairs_chosen, false, call.limit) == count, "routes refuse alike");
        ask_why(&call, count, kept);
        seen(16 + (unsigned)-count);
        return;
    }
    memcpy(kept, pairs.fill, 8 * (size_t)count);
    if (call.d <= SMALL) {
        require_selected(kept, (size_t)count, call.d, call.limit, partner);
    }
    require_begins(kept, count, call_route(&call, lovasuku_pairs_chosen, false, call.limit), true);
    ask_why(&call, count, kept);
    bool wild = any_wild(&call);
    int64_t indexed = call_route(&call, lovasuku_pairs_indexed, true, call.limit);
    if (!wild) {
        require_begins(kept, count, indexed, true);
    }
    require_begins(kept, count, call_route(&call, lovasuku_pairs_plain, false, 1.0), false);
    seen(32 + (wild ? 64 : 0) + (unsigned)(count < 63 ? count : 63));
}
