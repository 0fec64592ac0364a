/* Building calls: made of bytes, with tables and rooms of any length, and put to the library twice. */
#include <math.h>
#include <string.h>

#include "build.h"

enum { MOST_LINES = LOVASUKU_MOST_LINES + 2, MOST_POINTS = LOVASUKU_MOST_POINTS + 2, FEW = 48, MEDIUM = 300, WIDEST = 4 };
enum { TABLE, MEMBERS, MARKS, LISTING, MERGED, BOXES, SPARE, WORKSPACE, ROOMS };

static const size_t width[ROOMS] = {4, 4, 1, 4, 8, 8, 8, 8};
static struct slice coordinates, counts, groups, kinds, rooms[ROOMS];

/* What is lent beside the call: lengths in elements. */
struct lengths {
    size_t numbers, groups, kinds, rooms[ROOMS];
};

static void make_slices(void) {
    if (kinds.capacity != 0) {
        return;
    }
    const size_t most[ROOMS] = {LOVASUKU_RECORD * MEDIUM, MEDIUM, MEDIUM, MEDIUM, WIDEST * MOST_POINTS,
                                lovasuku_boxes_room(MEDIUM), WIDEST * MOST_POINTS, LOVASUKU_LINE_WORKSPACE * MEDIUM};
    make_input(&coordinates, WIDEST * MOST_POINTS * sizeof(double));
    make_input(&counts, MOST_LINES * sizeof(uint32_t));
    make_input(&groups, MOST_LINES * sizeof(uint32_t));
    make_input(&kinds, MOST_LINES);
    for (int room = 0; room < ROOMS; room++) {
        make_room(&rooms[room], width[room] * (most[room] + 1));
    }
}

/* Few lines, or about as many as a district or a call may have. */
static size_t next_lines(struct bytes *bytes) {
    uint8_t size = next_byte(bytes);
    switch (size) {
    case 0xff:
        return LOVASUKU_MOST_LINES + next_below(bytes, 2);
    case 0xfe:
        return next_below(bytes, MEDIUM);
    case 0xfd:
        return LOVASUKU_MOST_DISTRICT_LINES + next_below(bytes, 2);
    default:
        return size % FEW;
    }
}

/* The exponent's bits, which are all set in a NaN and in an infinity. */
static const uint64_t EXPONENT = 0x7ff0000000000000;

static bool is_nowhere(uint64_t word) {
    return (word & EXPONENT) == EXPONENT;
}

/* A word of the bytes; one that is no place is made one unless anything may stand there. */
static uint64_t next_coordinate(struct bytes *bytes, bool anything) {
    uint64_t word = next_word(bytes);
    return is_nowhere(word) && !anything ? word ^ 0x0010000000000000 : word;
}

/* Writes the lines of the bytes, of coordinates of so many numbers, and beyond them a row of lines end to end, as many of
 * the first district as it may have, and then of the second. Extras are any words. Gives the number of points. */
static size_t fill_lines(struct bytes *bytes, size_t n, size_t numbers, uint64_t *words, uint32_t *count,
                         uint32_t *group, uint8_t *kind) {
    static const uint8_t sizes[] = {2, 2, 2, 3, 3, 4, 1, 0};
    size_t points = 0;
    bool anything = next_byte(bytes) >= 0xe0;
    for (size_t line = 0; line < n; line++) {
        bool made = bytes->left > 0;
        uint8_t flags = next_byte(bytes);
        count[line] = sizes[flags % 8];
        group[line] = (flags >> 3 & 1) | (flags >> 4 & 1 ? LOVASUKU_BORDER : 0);
        if (!made && line >= LOVASUKU_MOST_DISTRICT_LINES) {
            group[line] |= LOVASUKU_BORDER;
        }
        kind[line] = flags < 0xe0 ? 0 : flags < 0xff ? 1 : 2;
        for (size_t k = 0; k < count[line]; k++) {
            uint64_t *at = words + numbers * points;
            at[0] = made ? next_coordinate(bytes, anything) : bits_of((double)(line + k));
            at[1] = made ? next_coordinate(bytes, anything) : 0;
            for (size_t extra = 2; extra < numbers; extra++) {
                at[extra] = made ? next_word(bytes) : bits_of((double)(points + extra));
            }
            points++;
        }
    }
    return points;
}

/* Counts that do not add up, or a line of too many points, if the bytes say so. Gives the number of points.
 */
static size_t damage_counts(struct bytes *bytes, size_t n, size_t numbers, size_t points, uint64_t *words,
                            uint32_t *count) {
    uint8_t flags = next_byte(bytes);
    if (n == 0) {
        return points;
    }
    if (flags == 0xff) {
        count[next_below(bytes, n)] += next_below(bytes, 4) * 0x40000000u;
        count[next_below(bytes, n)] += next_below(bytes, 4) * 0x40000000u + next_below(bytes, 2);
    } else if (flags == 0xfe && next_byte(bytes) == 0xff) {
        size_t most = next_byte(bytes) % 2 == 0 ? LOVASUKU_MOST_DISTRICT_POINTS : LOVASUKU_MOST_POINTS;
        size_t wanted = most + next_below(bytes, 2);
        memset(words + numbers * points, 0, 8 * numbers * (wanted - points));
        count[n - 1] += (uint32_t)(wanted - points);
        return wanted;
    }
    return points;
}

/* Makes a call of bytes and lends its input. */
static struct building next_building(struct bytes *bytes, struct lengths *lengths) {
    static uint64_t words[WIDEST * MOST_POINTS + 2];
    static uint32_t count[MOST_LINES + 1], group[MOST_LINES + 1];
    static uint8_t kind[MOST_LINES + 1];
    struct building call = {0};
    call.n = next_lines(bytes);
    call.tolerance = double_of(next_word(bytes));
    if (next_byte(bytes) % 2 == 1) {
        call.origin_x = double_of(next_word(bytes));
        call.origin_y = double_of(next_word(bytes));
    }
    call.switch_on = next_byte(bytes) % 2;
    call.limit = next_limit(bytes);
    call.by_offset = next_byte(bytes) % 4 == 3;
    if (call.by_offset) {
        call.offset = next_offset(bytes);
        call.limit = call.offset > LOVASUKU_MOST_OFFSET ? NAN : limit_of_offset(call.offset);
    }
    call.wkb_type = next_type(bytes);
    call.width = width_of(call.wkb_type);
    size_t numbers = call.width == 0 ? 2 : call.width;
    size_t points = fill_lines(bytes, call.n, numbers, words, count, group, kind);
    call.c = damage_counts(bytes, call.n, numbers, points, words, count);
    lengths->numbers = next_length(bytes, numbers * call.c);
    lengths->groups = next_length(bytes, call.n);
    lengths->kinds = next_length(bytes, call.n);
    if (next_byte(bytes) == 0xff) {
        call.switch_on = next_byte(bytes);
    }
    lend_input(&coordinates, 8 * lengths->numbers);
    lend_input(&counts, 4 * call.n);
    lend_input(&groups, 4 * lengths->groups);
    lend_input(&kinds, lengths->kinds);
    memcpy(coordinates.fill, words, coordinates.bytes);
    memcpy(counts.fill, count, counts.bytes);
    memcpy(groups.fill, group, groups.bytes);
    memcpy(kinds.fill, kind, kinds.bytes);
    return call;
}

/* The rooms of a call of so many lines. */
static void wanted_rooms(size_t n, size_t numbers, size_t *wanted) {
    const size_t lengths[ROOMS] = {LOVASUKU_RECORD * n, n, n, n, numbers, lovasuku_boxes_room(n), numbers,
                                   LOVASUKU_LINE_WORKSPACE * n};
    memcpy(wanted, lengths, sizeof lengths);
}

static bool any_kind_above_one(void) {
    for (size_t i = 0; i < kinds.bytes; i++) {
        if (kinds.fill[i] > 1) {
            return true;
        }
    }
    return false;
}

static bool counts_add_up(const struct building *call, size_t numbers) {
    uint64_t sum = 0;
    for (size_t i = 0; i < call->n; i++) {
        sum += ((const uint32_t *)counts.fill)[i];
    }
    return call->width * sum == numbers;
}

/* What a district brings: its lines, or its coordinates. */
static uint64_t brought(const struct building *call, bool second, bool points) {
    uint64_t sum = 0;
    for (size_t i = 0; i < call->n; i++) {
        bool of_second = ((const uint32_t *)groups.fill)[i] >= LOVASUKU_BORDER;
        if (of_second == second) {
            sum += points ? ((const uint32_t *)counts.fill)[i] : 1;
        }
    }
    return sum;
}

/* True where either district brings more than its share. */
static bool over_share(const struct building *call, bool points) {
    uint64_t most = points ? LOVASUKU_MOST_DISTRICT_POINTS : LOVASUKU_MOST_DISTRICT_LINES;
    return brought(call, false, points) > most || brought(call, true, points) > most;
}

/* True where an x or a y is no place. */
static bool any_coordinate_nowhere(const struct building *call, size_t numbers) {
    const uint64_t *words = (const uint64_t *)coordinates.fill;
    for (size_t i = 0; i < numbers; i += call->width) {
        if (is_nowhere(words[i]) || is_nowhere(words[i + 1])) {
            return true;
        }
    }
    return false;
}

/* The number of the first refusal that applies, or 0. */
static int refusal(const struct building *call, const struct lengths *lengths) {
    size_t wanted[ROOMS];
    if (call->width == 0) {
        return LOVASUKU_BAD_TYPE;
    }
    if (call->n > LOVASUKU_MOST_LINES) {
        return LOVASUKU_TOO_MANY;
    }
    if (lengths->groups != call->n || lengths->kinds != call->n) {
        return LOVASUKU_TABLES_DIFFER;
    }
    if (any_kind_above_one()) {
        return LOVASUKU_MARK_ABOVE_ONE;
    }
    if (!counts_add_up(call, lengths->numbers)) {
        return LOVASUKU_COUNTS_DO_NOT_ADD_UP;
    }
    if (lengths->numbers > call->width * LOVASUKU_MOST_POINTS) {
        return LOVASUKU_TOO_MANY_COORDINATES;
    }
    if (over_share(call, false)) {
        return LOVASUKU_DISTRICT_OVER_LINES;
    }
    if (over_share(call, true)) {
        return LOVASUKU_DISTRICT_OVER_COORDINATES;
    }
    if (any_coordinate_nowhere(call, lengths->numbers)) {
        return LOVASUKU_NO_PLACE;
    }
    if (call->switch_on > 1 || (call->switch_on == 1 && limit_is_bad(call->limit))) {
        return call->by_offset && call->switch_on == 1 ? LOVASUKU_BAD_OFFSET : LOVASUKU_BAD_LIMIT;
    }
    if (!isfinite(call->origin_x) || !isfinite(call->origin_y)) {
        return LOVASUKU_BAD_ORIGIN;
    }
    wanted_rooms(call->n, lengths->numbers, wanted);
    for (int room = 0; room < ROOMS; room++) {
        if (lengths->rooms[room] < wanted[room]) {
            return LOVASUKU_ROOM_TOO_SHORT;
        }
    }
    return 0;
}

static int64_t make_call(const struct building *call, const struct lengths *lengths, unsigned char dirt) {
    for (int room = 0; room < ROOMS; room++) {
        lend_room(&rooms[room], width[room] * lengths->rooms[room], dirt);
    }
    const size_t *room = lengths->rooms;
    if (call->by_offset) {
        return lovasuku_build_offset(
            call->wkb_type, coordinates.lent, lengths->numbers, counts.lent, call->n, groups.lent, lengths->groups,
            kinds.lent, lengths->kinds, call->tolerance, call->origin_x, call->origin_y, call->switch_on, call->offset,
            rooms[TABLE].lent, room[TABLE], rooms[MEMBERS].lent, room[MEMBERS], rooms[MARKS].lent, room[MARKS],
            rooms[LISTING].lent, room[LISTING], rooms[MERGED].lent, room[MERGED], rooms[BOXES].lent, room[BOXES],
            rooms[SPARE].lent, room[SPARE], rooms[WORKSPACE].lent, room[WORKSPACE]);
    }
    return lovasuku_build(call->wkb_type, coordinates.lent, lengths->numbers, counts.lent, call->n, groups.lent,
                          lengths->groups, kinds.lent, lengths->kinds, call->tolerance, call->origin_x,
                          call->origin_y, call->switch_on, call->limit, rooms[TABLE].lent, room[TABLE],
                          rooms[MEMBERS].lent, room[MEMBERS], rooms[MARKS].lent, room[MARKS], rooms[LISTING].lent,
                          room[LISTING], rooms[MERGED].lent, room[MERGED], rooms[BOXES].lent, room[BOXES],
                          rooms[SPARE].lent, room[SPARE], rooms[WORKSPACE].lent, room[WORKSPACE]);
}

/* Requires the rooms of an accepted call to hold the answer and to be otherwise zero or as before. */
static void require_rooms(struct building *call, const struct lengths *lengths, size_t chains) {
    call->coordinates = (const uint64_t *)coordinates.fill;
    call->counts = (const uint32_t *)counts.fill;
    call->groups = (const uint32_t *)groups.fill;
    call->kinds = kinds.fill;
    call->table = (const uint32_t *)rooms[TABLE].fill;
    call->members = (const uint32_t *)rooms[MEMBERS].fill;
    call->marks = rooms[MARKS].fill;
    call->listing = (const uint32_t *)rooms[LISTING].fill;
    call->merged = (const uint64_t *)rooms[MERGED].fill;
    call->boxes = (const uint64_t *)rooms[BOXES].fill;
    size_t merged = require_built(call, chains);
    require_acceptable(call, lengths->numbers, chains, merged);
    require_untouched_from(&rooms[TABLE], 4 * LOVASUKU_RECORD * chains,
                           "table is as before beyond what is written");
    require_untouched_from(&rooms[MEMBERS], 4 * call->n, "members are as before beyond what is written");
    require_untouched_from(&rooms[MARKS], call->n, "marks are as before beyond what is written");
    require_untouched_from(&rooms[LISTING], 4 * call->n, "the listing is as before beyond what is written");
    require_untouched_from(&rooms[MERGED], 8 * merged, "merged is as before beyond what is written");
    require_untouched_from(&rooms[BOXES], 8 * require_boxes(call, chains),
                           "boxes are as before beyond what is written");
    require_cleared(&rooms[SPARE], 8 * lengths->numbers, "spare is zero and as before beyond");
    require_cleared(&rooms[WORKSPACE], 8 * LOVASUKU_LINE_WORKSPACE * call->n,
                    "workspace is zero and as before beyond");
    for (size_t k = 0; k <= chains; k++) {
        size_t numbers = LOVASUKU_RECORD * chains;
        int64_t answer = lovasuku_chain(call->wkb_type, coordinates.lent, lengths->numbers, rooms[MERGED].lent, merged,
                                        rooms[TABLE].lent, numbers, k);
        require(answer == (k < chains ? 0 : -LOVASUKU_NO_SUCH_CHAIN), "the chain question knows every chain");
    }
}

/* The same lines without extras have the same table, members, marks and listing, and x and y. */
static void require_alike_without_extras(const struct building *call, struct lengths lengths, unsigned char dirt,
                                         size_t chains) {
    static uint64_t merged_before[WIDEST * MOST_POINTS];
    static unsigned char before[MERGED][LOVASUKU_RECORD * MEDIUM * 4];
    size_t written[] = {4 * LOVASUKU_RECORD * chains, 4 * call->n, call->n, 4 * call->n};
    size_t merged = 0;
    for (size_t k = 0; k < chains; k++) {
        const uint32_t *record = call->table + LOVASUKU_RECORD * k;
        merged += record[2] == 1 ? record[4] : 0;
    }
    for (int room = TABLE; room <= LISTING; room++) {
        memcpy(before[room], rooms[room].fill, written[room]);
    }
    memcpy(merged_before, rooms[MERGED].fill, 8 * call->width * merged);
    uint64_t *words = (uint64_t *)coordinates.fill;
    static uint64_t flat_words[2 * MOST_POINTS];
    for (size_t i = 0; i < call->c; i++) {
        memcpy(flat_words + 2 * i, words + call->width * i, 16);
    }
    lend_input(&coordinates, 16 * call->c);
    memcpy(coordinates.fill, flat_words, 16 * call->c);
    struct building flat = *call;
    flat.wkb_type = LOVASUKU_XY;
    flat.width = 2;
    lengths.numbers = 2 * call->c;
    require(make_call(&flat, &lengths, dirt) == (int64_t)chains, "without extras there are as many chains");
    for (int room = TABLE; room <= LISTING; room++) {
        require(memcmp(before[room], rooms[room].fill, written[room]) == 0,
                "without extras table, members, marks and listing are the same");
    }
    const uint64_t *points = (const uint64_t *)rooms[MERGED].fill;
    for (size_t i = 0; i < merged; i++) {
        require(memcmp(points + 2 * i, merged_before + call->width * i, 16) == 0,
                "without extras x and y are the same");
    }
}

/* A sum over the answer, to compare two calls by. */
static uint64_t sum_of_answer(const struct building *call, size_t chains) {
    const size_t written[] = {4 * LOVASUKU_RECORD * chains, 4 * call->n, call->n, 4 * call->n};
    uint64_t sum = chains;
    for (int room = TABLE; room <= LISTING; room++) {
        for (size_t i = 0; i < written[room]; i++) {
            sum = (sum ^ rooms[room].fill[i]) * 0x100000001b3;
        }
    }
    return sum;
}

/* A number of an origin that is as good: any where there are no cells, and of a zero the other. */
static double alike(const struct building *call, double origin) {
    if (!(call->tolerance > 0)) {
        return 0.75;
    }
    return origin == 0 ? -origin : origin;
}

void fuzz_build(struct bytes *bytes) {
    make_slices();
    struct lengths lengths;
    struct building call = next_building(bytes, &lengths);
    /* Of many lines a call gets short rooms, which it may refuse. */
    wanted_rooms(call.n > MEDIUM ? FEW : call.n, lengths.numbers, lengths.rooms);
    for (int room = 0; room < ROOMS; room++) {
        lengths.rooms[room] = next_length(bytes, lengths.rooms[room]);
    }
    unsigned char dirt = next_byte(bytes);
    int64_t answer = make_call(&call, &lengths, dirt);
    int expected = refusal(&call, &lengths);
    require(expected == 0 ? answer >= 0 : answer == -expected, "the first refusal that applies is given");
    seen(answer < 0 ? 256 + (unsigned)-answer : 320 + (unsigned)(answer < 63 ? answer : 63));
    if (answer < 0) {
        for (int room = 0; room < ROOMS; room++) {
            require_untouched_from(&rooms[room], 0, "a refused call leaves every room as it was");
        }
        return;
    }
    require_rooms(&call, &lengths, (size_t)answer);
    look_into(bytes, &call, rooms[BOXES].lent, lengths.rooms[BOXES], (size_t)answer);
    require_parted(bytes, &call, (size_t)answer, require_built(&call, (size_t)answer),
                   require_boxes(&call, (size_t)answer));
    uint64_t sum = sum_of_answer(&call, (size_t)answer);
    seen(1024 + (unsigned)(sum % 1024));
    /* With an offset it is the call with the offset's limit; above 1,000 the limit isn't looked at. */
    call.by_offset = false;
    call.origin_x = alike(&call, call.origin_x);
    call.origin_y = alike(&call, call.origin_y);
    require(make_call(&call, &lengths, (unsigned char)~dirt) == answer, "the same call has the same answer");
    require_rooms(&call, &lengths, (size_t)answer);
    require(sum_of_answer(&call, (size_t)answer) == sum,
            "the same call has the same answer, whatever stood in its rooms");
    if (call.width > 2 && call.n <= FEW) {
        require_alike_without_extras(&call, lengths, dirt, (size_t)answer);
    }
}
