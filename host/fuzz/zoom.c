/* Building in two calls: equal to building in one, and pieces of any sort. The pieces lie in memory that cannot be
 * written while they are finished. */
#include <string.h>

#include "zoom.h"

enum { FEW = 48, MOST_POINTS = 300, WIDEST = 4, MOST_LONGER = 8 };
enum { TABLE, MEMBERS, MARKS, LISTING, MERGED, BOXES, WORKSPACE, ROOMS };
enum { RECORDS, PIECE_MEMBERS, PIECE_MARKS, PIECE_LISTING, PIECE_MERGED, LENT };

static const size_t size_of[ROOMS] = {4, 4, 1, 4, 8, 8, 8};
static const size_t lent_size[LENT] = {4, 4, 1, 4, 8};
static struct slice rooms[ROOMS], left[LENT], lent[LENT], workspace;

static void make_slices(void) {
    if (workspace.capacity != 0) {
        return;
    }
    const size_t most[ROOMS] = {LOVASUKU_RECORD * FEW, FEW, FEW, FEW, WIDEST * MOST_POINTS, lovasuku_boxes_room(FEW),
                                LOVASUKU_LINE_WORKSPACE * FEW};
    const size_t pieces[LENT] = {LOVASUKU_PIECE * FEW, FEW, FEW, FEW, WIDEST * (MOST_POINTS + MOST_LONGER)};
    for (int room = 0; room < ROOMS; room++) {
        make_room(&rooms[room], size_of[room] * (most[room] + 1));
    }
    for (int slice = 0; slice < LENT; slice++) {
        make_room(&left[slice], lent_size[slice] * (pieces[slice] + 8));
        make_input(&lent[slice], lent_size[slice] * (pieces[slice] + 8));
    }
    make_room(&workspace, 8 * LOVASUKU_LINE_WORKSPACE * FEW);
}

/* The first call, in rooms of exactly the right lengths. */
static int64_t call_first(const struct building *call, unsigned char dirt) {
    const size_t lengths[LENT] = {LOVASUKU_PIECE * call->n, call->n, call->n, call->n, call->width * call->c};
    for (int slice = 0; slice < LENT; slice++) {
        lend_room(&left[slice], lent_size[slice] * lengths[slice], dirt);
    }
    lend_room(&workspace, 8 * lovasuku_workspace_room(call->n), dirt);
    return lovasuku_first(call->wkb_type, (const double *)call->coordinates, call->width * call->c, call->counts, call->n,
                          call->groups, call->n, call->kinds, call->n, call->switch_on, call->limit,
                          left[RECORDS].lent, lengths[RECORDS], left[PIECE_MEMBERS].lent, call->n,
                          left[PIECE_MARKS].lent, call->n, left[PIECE_LISTING].lent, call->n,
                          left[PIECE_MERGED].lent, lengths[PIECE_MERGED], workspace.lent,
                          lovasuku_workspace_room(call->n));
}

/* The second call on the pieces that are lent, with rooms of which one may be too short. */
static int64_t call_finish(const struct building *call, const struct pieces *p, const size_t *lengths,
                           unsigned char dirt) {
    for (int room = 0; room < ROOMS; room++) {
        lend_room(&rooms[room], size_of[room] * lengths[room], dirt);
    }
    return lovasuku_finish(
        call->wkb_type, (const double *)call->coordinates, call->width * call->c, call->counts, call->n, call->groups,
        call->n, call->kinds, call->n, lent[RECORDS].lent, p->records_length, lent[PIECE_MEMBERS].lent,
        p->members_length, lent[PIECE_MARKS].lent, p->marks_length, lent[PIECE_LISTING].lent, p->listing_length,
        lent[PIECE_MERGED].lent, p->merged_length, p->k, call->tolerance, call->origin_x, call->origin_y,
        call->switch_on, call->limit, rooms[TABLE].lent, lengths[TABLE], rooms[MEMBERS].lent, lengths[MEMBERS],
        rooms[MARKS].lent, lengths[MARKS], rooms[LISTING].lent, lengths[LISTING], rooms[MERGED].lent, lengths[MERGED],
        rooms[BOXES].lent, lengths[BOXES], rooms[WORKSPACE].lent, lengths[WORKSPACE]);
}

static void wanted_rooms(const struct building *call, size_t *lengths) {
    size_t n = call->n, numbers = call->width * call->c;
    const size_t wanted[ROOMS] = {LOVASUKU_RECORD * n, n, n, n, numbers, lovasuku_boxes_room(n),
                                  LOVASUKU_LINE_WORKSPACE * n};
    memcpy(lengths, wanted, sizeof wanted);
}

/* How many numbers pieces of round one have: members, and merged numbers. */
static void measure_left(const struct building *call, size_t k, size_t *members, size_t *merged) {
    const uint32_t *records = (const uint32_t *)left[RECORDS].fill;
    *members = *merged = 0;
    for (size_t i = 0; i < k; i++) {
        const uint32_t *record = records + LOVASUKU_PIECE * i;
        require(record[0] == *members && record[1] > 0, "first members of pieces add up");
        *members += record[1];
        require(record[2] == (record[1] > 1), "a piece of several lines is merged, a lone line is not");
        if (record[2] == 1) {
            require(record[3] * call->width == *merged, "first coordinates of pieces add up");
            *merged += call->width * record[4];
        }
    }
}

/* Lends what the first call left, as it is. */
static struct pieces lend_left(const struct building *call, size_t k) {
    size_t members, merged;
    measure_left(call, k, &members, &merged);
    const size_t lengths[LENT] = {LOVASUKU_PIECE * k, members, members, members, merged};
    const char *beyond = "pieces are as before beyond what is written";
    for (int slice = 0; slice < LENT; slice++) {
        require_untouched_from(&left[slice], lent_size[slice] * lengths[slice], beyond);
        lend_input(&lent[slice], lent_size[slice] * lengths[slice]);
        memcpy(lent[slice].fill, left[slice].fill, lent_size[slice] * lengths[slice]);
    }
    require_cleared(&workspace, 8 * lovasuku_workspace_room(call->n), "workspace is zero and as before beyond");
    struct pieces p = {(const uint32_t *)lent[RECORDS].fill, (const uint32_t *)lent[PIECE_MEMBERS].fill,
                       (const uint32_t *)lent[PIECE_LISTING].fill, lent[PIECE_MARKS].fill,
                       (const uint64_t *)lent[PIECE_MERGED].fill, lengths[RECORDS], members, members, members, merged, k};
    return p;
}

/* Requires what was written to be what one call has written, which stands in the building. */
static void require_same(const struct building *call, size_t chains, size_t merged, size_t boxes) {
    const void *one[ROOMS] = {call->table, call->members, call->marks, call->listing, call->merged, call->boxes, NULL};
    const size_t lengths[ROOMS] = {LOVASUKU_RECORD * chains, call->n, call->n, call->n, merged, boxes, 0};
    for (int room = TABLE; room <= BOXES; room++) {
        size_t bytes = size_of[room] * lengths[room];
        require(bytes == 0 || memcmp(rooms[room].fill, one[room], bytes) == 0, "two calls write what one does");
        require_untouched_from(&rooms[room], bytes, "and nothing beyond");
    }
    require_cleared(&rooms[WORKSPACE], 8 * LOVASUKU_LINE_WORKSPACE * call->n,
                    "workspace is zero and as before beyond");
}

/* Another number at a place of a slice. */
static void change_number(struct bytes *bytes, uint8_t choice) {
    int slice = next_byte(bytes) % LENT;
    size_t length = lent[slice].bytes / lent_size[slice];
    if (length == 0) {
        return;
    }
    static const uint64_t edges[] = {0, 1, 2, 0x7fffffff, 0x80000000, 0xffffffff};
    size_t at = next_below(bytes, length);
    uint64_t number = choice < RARELY ? next_below(bytes, 12) : rare_number(bytes, choice, edges, COUNT(edges), 4);
    number = slice == PIECE_MERGED ? next_word(bytes) : number;
    memcpy(lent[slice].fill + lent_size[slice] * at, &number, lent_size[slice]);
}

/* Two lines exchanged in the listing, or among the members. */
static void exchange(struct bytes *bytes, const struct pieces *p) {
    uint32_t *of = (uint32_t *)lent[next_byte(bytes) % 2 == 0 ? PIECE_LISTING : PIECE_MEMBERS].fill;
    if (p->members_length > 0) {
        size_t one = next_below(bytes, p->members_length), other = next_below(bytes, p->members_length);
        uint32_t line = of[one];
        of[one] = of[other];
        of[other] = line;
    }
}

/* The last merged piece a coordinate longer, which repeats its first, where there is room. */
static void lengthen(const struct building *call, struct pieces *p) {
    uint32_t *records = (uint32_t *)lent[RECORDS].fill;
    for (size_t k = p->k; k-- > 0;) {
        uint32_t *record = records + LOVASUKU_PIECE * k;
        if (record[2] == 1 && call->width * ((size_t)record[3] + record[4]) == p->merged_length) {
            static uint64_t words[WIDEST * (MOST_POINTS + MOST_LONGER)];
            memcpy(words, lent[PIECE_MERGED].fill, 8 * p->merged_length);
            memcpy(words + p->merged_length, words + call->width * record[3], 8 * call->width);
            p->merged_length += call->width;
            record[4]++;
            lend_input(&lent[PIECE_MERGED], 8 * p->merged_length);
            memcpy(lent[PIECE_MERGED].fill, words, 8 * p->merged_length);
            p->merged = (const uint64_t *)lent[PIECE_MERGED].fill;
            return;
        }
    }
}

/* Changes pieces as the bytes say, then the lengths of their slices and their number. */
static void damage(struct bytes *bytes, const struct building *call, struct pieces *p) {
    int longer = 0;
    for (uint8_t choice = next_byte(bytes); choice % 4 != 0; choice = next_byte(bytes)) {
        if (choice % 4 == 1) {
            change_number(bytes, choice);
        } else if (choice % 4 == 2) {
            exchange(bytes, p);
        } else if (longer++ < MOST_LONGER && p->k <= p->records_length / LOVASUKU_PIECE) {
            lengthen(call, p);
        }
    }
    size_t *lengths[] = {&p->records_length, &p->members_length, &p->marks_length, &p->listing_length, &p->merged_length};
    for (int slice = 0; slice < LENT; slice++) {
        size_t fewer = next_byte(bytes) == 0xff && *lengths[slice] > 0;
        *lengths[slice] -= fewer;
    }
    uint8_t choice = next_byte(bytes);
    p->k = choice == 0xff ? UINT64_MAX : choice == 0xfe ? p->k + 1 : choice == 0xfd && p->k > 0 ? p->k - 1 : p->k;
}

/* Pieces of any sort are refused exactly where the request says so, and otherwise every line is in one chain. */
static void finish_damaged(struct bytes *bytes, const struct building *call, struct pieces p, unsigned char dirt) {
    size_t lengths[ROOMS];
    wanted_rooms(call, lengths);
    damage(bytes, call, &p);
    size_t room = next_byte(bytes);
    bool is_short = room < ROOMS && lengths[room] > 0;
    if (is_short) {
        lengths[room]--;
    }
    int64_t answer = call_finish(call, &p, lengths, dirt);
    bool bad = pieces_are_bad(call, &p);
    int expected = bad ? LOVASUKU_BAD_PIECES : is_short ? LOVASUKU_ROOM_TOO_SHORT : 0;
    require(expected == 0 ? answer >= 0 : answer == -expected, "19, then 7, or the pieces are finished");
    seen(3200 + (unsigned)(expected == 0 ? 32 + (answer < 64 ? answer : 64) : expected));
    for (int i = 0; i < ROOMS && expected != 0; i++) {
        require_untouched_from(&rooms[i], 0, "a refused call leaves every room as it was");
    }
    uint8_t met[FEW] = {0};
    for (size_t i = 0; i < call->n && expected == 0; i++) {
        uint32_t line = ((const uint32_t *)rooms[MEMBERS].fill)[i];
        require(line < call->n && !met[line], "every line is a member once");
        met[line] = 1;
    }
}

void require_parted(struct bytes *bytes, const struct building *call, size_t chains, size_t merged, size_t boxes) {
    if (call->n >= FEW || call->c > MOST_POINTS) {
        return;
    }
    make_slices();
    unsigned char dirt = next_byte(bytes);
    int64_t k = call_first(call, dirt);
    require(k >= 0 && (size_t)k <= call->n, "what is built in one call is begun in two");
    struct pieces p = lend_left(call, (size_t)k);
    size_t lengths[ROOMS];
    wanted_rooms(call, lengths);
    require(!pieces_are_bad(call, &p), "19 lets round one's pieces pass");
    require(call_finish(call, &p, lengths, dirt) == (int64_t)chains, "two calls have the answer of one");
    require_same(call, chains, merged, boxes);
    finish_damaged(bytes, call, p, (unsigned char)~dirt);
}
