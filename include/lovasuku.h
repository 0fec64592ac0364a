/* Lovasuku: verified line joining. Lines in, chains out, by rules that are written down and proved.
 *
 * Every call lends its input and its rooms and gets back one number: a result from 0 up, or, below 0, minus
 * the number of a refusal. Nothing is allocated and nothing is kept between calls, so calls may run on
 * several threads at once, each with rooms of its own. A call takes less than 64 KiB of its thread's stack.
 *
 * A slice is a pointer and a length in elements. A slice of length 0 is not looked at, so its pointer may be
 * anything, NULL included. Rooms (the slices without const) must not overlap one another or the input; inputs may
 * overlap. Rooms need not be cleared before a call and may be longer than asked for. A refused call stores nothing.
 * After an accepted call spare and workspace are 0 over the length named below, each output begins with what was
 * written, and whatever lies beyond is as before.
 *
 * Coordinates are lent and come back bit for bit. Every call that has to do with them holds one type of OGC 06-103r4,
 * which is given first: LOVASUKU_XY, or one with extras, a height (Z), a measure (M) or both (ZM). A coordinate is
 * then two numbers, three or four: x, y, and the extras in that order. x and y alone decide what is joined, and
 * building takes any finite double for them and refuses the others. Extras may be any double, NaN included. They are
 * never looked at and ride along with their x and y, bit for bit; of coordinates that repeat one another's x and y the
 * earlier one stays, with its extras.
 *
 * Link libdoor.a, which `host/archive door` writes for x86-64 Linux.
 */
#ifndef LOVASUKU_H
#define LOVASUKU_H

#include <stddef.h>
#include <stdint.h>

#ifdef __cplusplus
extern "C" {
#endif

/* The version that this header is of. */
#define LOVASUKU_VERSION_MAJOR 0
#define LOVASUKU_VERSION_MINOR 1
#define LOVASUKU_VERSION_PATCH 0
#define LOVASUKU_VERSION "0.1.0"

/* How much a call takes. */
#define LOVASUKU_MOST_LINES 4096
#define LOVASUKU_MOST_POINTS 65536
#define LOVASUKU_MOST_ENDS 8192

/* Two districts may share a call: the lines of groups below the border are the first's and the rest the second's. How
 * much each may bring of the lines and coordinates that a call takes. */
#define LOVASUKU_BORDER 0x80000000u
#define LOVASUKU_MOST_DISTRICT_LINES 2048
#define LOVASUKU_MOST_DISTRICT_POINTS 32768

/* The greatest offset, in millimetres per metre run. */
#define LOVASUKU_MOST_OFFSET 1000

/* The types of lines, by the numbers of ISO's WKB: x and y; with a height; with a measure; with both. What is none of
 * these is refused by 12, first of all. */
#define LOVASUKU_XY 2
#define LOVASUKU_XYZ 1002
#define LOVASUKU_XYM 2002
#define LOVASUKU_XYZM 3002

/* Numbers of a coordinate of a type, and 0 for a number that is none. */
#define lovasuku_stride(wkb_type)                                                                                     \
    ((size_t)((wkb_type) == LOVASUKU_XY ? 2                                                                           \
              : (wkb_type) == LOVASUKU_XYZ || (wkb_type) == LOVASUKU_XYM ? 3                                          \
              : (wkb_type) == LOVASUKU_XYZM ? 4 : 0))

/* Numbers of a chain's record, of a piece's, and of a box; words of workspace for each line and for each end. */
#define LOVASUKU_RECORD 6
#define LOVASUKU_PIECE 5
#define LOVASUKU_BOX 4
#define LOVASUKU_LINE_WORKSPACE 192
#define LOVASUKU_END_WORKSPACE 64

/* The rooms of a call in elements: of building for n lines and c coordinates of a type, each counted once whatever it
 * has; of pairing for d ends. */
#define lovasuku_table_room(n) ((size_t)LOVASUKU_RECORD * (size_t)(n))
#define lovasuku_pieces_room(n) ((size_t)LOVASUKU_PIECE * (size_t)(n))
#define lovasuku_members_room(n) ((size_t)(n))
#define lovasuku_marks_room(n) ((size_t)(n))
#define lovasuku_listing_room(n) ((size_t)(n))
#define lovasuku_merged_room(wkb_type, c) (lovasuku_stride(wkb_type) * (size_t)(c))
#define lovasuku_boxes_room(n) ((size_t)8 * (size_t)(n) + (size_t)64)
#define lovasuku_spare_room(wkb_type, c) (lovasuku_stride(wkb_type) * (size_t)(c))
#define lovasuku_workspace_room(n) ((size_t)LOVASUKU_LINE_WORKSPACE * (size_t)(n))
#define lovasuku_pairs_room(d) ((size_t)(d))
#define lovasuku_pairs_workspace_room(d) ((size_t)LOVASUKU_END_WORKSPACE * (size_t)(d))

/* The refusals. An answer is minus one of these: the first that applies, in the order in which each call below names
 * its own. */
enum lovasuku_refusal {
    LOVASUKU_TOO_MANY = 1,             /* More than 4,096 lines, or for pairing more than 8,192 ends. */
    LOVASUKU_TABLES_DIFFER = 2,        /* The tables of the lines, or of the ends, differ in length. */
    LOVASUKU_MARK_ABOVE_ONE = 3,       /* A kind or a presence mark is above 1. */
    LOVASUKU_COUNTS_DO_NOT_ADD_UP = 4, /* The counts, by the numbers of a coordinate, do not add up to the length. */
    LOVASUKU_TOO_MANY_COORDINATES = 5, /* More than 65,536 coordinates. */
    LOVASUKU_DISTRICT_OVER_LINES = 20, /* A district has more than 2,048 lines. */
    LOVASUKU_DISTRICT_OVER_COORDINATES = 21, /* A district has more than 32,768 coordinates. */
    LOVASUKU_NO_PLACE = 15,            /* An x or a y is NaN or infinite. */
    LOVASUKU_BAD_LIMIT = 6,            /* The switch is above 1, or the limit is not a number from -1 to 1. */
    LOVASUKU_BAD_OFFSET = 22,          /* The offset that stands in the limit's place is above 1,000. */
    LOVASUKU_BAD_ORIGIN = 17,          /* The x or the y of the origin is NaN or infinite. */
    LOVASUKU_BAD_PIECES = 19,          /* Pieces that are lent are not those of these lines. */
    LOVASUKU_BAD_WINDOW = 18,          /* A window has a NaN, or a least above its greatest. */
    LOVASUKU_ROOM_TOO_SHORT = 7,       /* A lent room is shorter than the call needs. */
    LOVASUKU_PIECE_TOO_OFTEN = 8,      /* A piece number occurs more than twice. */
    LOVASUKU_NOT_FINITE = 9,           /* The indexed route was given a present direction that is not finite. */
    LOVASUKU_NO_SUCH_CHAIN = 10,       /* The table has no such chain. */
    LOVASUKU_BAD_RECORD = 23,          /* A record of chains made elsewhere names no chain, or no lines of these. */
    LOVASUKU_NOT_ACCEPTABLE = 24,      /* Chains made elsewhere are not acceptable otherwise. */
    LOVASUKU_BAD_BYTE_ORDER = 11,      /* A WKB record's byte order is neither 0 nor 1. */
    LOVASUKU_BAD_TYPE = 12,            /* A type, given or a WKB record's, is none of 2, 1002, 2002 and 3002. */
    LOVASUKU_MIXED_TYPES = 25,         /* A WKB record's type differs from the first record's. */
    LOVASUKU_BAD_LENGTH = 13,          /* The lengths do not add up, or a WKB record's count and length disagree. */
    LOVASUKU_RECORD_ROOM_TOO_SHORT = 14, /* A room is shorter than the WKB records need. */
    LOVASUKU_UNKNOWN_ORDER = 16,       /* The byte order to be written is neither 0 nor 1. */
    LOVASUKU_NO_TWO_ENDS = 26          /* An end number is not below the number of ends, or the two are equal. */
};

/* Why two ends are joined or not: what lovasuku_why answers, and the first of these that applies. */
enum lovasuku_reason {
    LOVASUKU_SELECTED = 0,         /* Their pair is selected. */
    LOVASUKU_SAME_PIECE = 1,       /* They are the two ends of one piece. */
    LOVASUKU_ABSENT_DIRECTION = 2, /* One of them has no direction. */
    LOVASUKU_NOT_QUALIFYING = 3,   /* Their measure is above the limit, or NaN. */
    LOVASUKU_BLOCKED = 4           /* 4 + p: selected pair p, pairs[2p] and pairs[2p + 1], has one of them. */
};

/* Joins lines into chains. The result is the number of chains.
 *
 * Lent are the type of all lines and, for n lines of c coordinates in all: coordinates, 2c numbers x, y, x, y .. (3c
 * or 4c with extras), one line behind another; counts, groups and kinds, n numbers each: how many coordinates a line
 * has, its group (lines of different groups are never joined) and its kind (0 plain, 1 passes through unjoined; a line
 * of fewer than two coordinates passes through as well). Round one joins ends that agree bit for bit in x and y; round
 * two, which runs where tolerance is above 0, joins the ends of what round one left that lie in one cell of that size.
 * Cells are counted from the origin: an end lies in column floor((x - origin_x) / tolerance), row
 * floor((y - origin_y) / tolerance), where the difference is rounded, and then the quotient. Two ends that meet with
 * no third are joined at any angle, unless they are the two ends of one piece. Of three or more the straightest pairs
 * are joined if switch_on is 1, as long as the dot product of their directions is at or below limit (-1 straight on, 0
 * a right angle, 1 any turn); with switch_on 0 none are, and limit is not looked at.
 *
 * Written are, with k chains: table, 6k numbers, for each chain its first member, its number of members, its source (0
 * the caller's coordinates, 1 merged), its first coordinate and its number of coordinates, each coordinate counted
 * once, and 1 where it is a loop, else 0; members, n positions of lines, chain by chain; marks, n bytes in the members'
 * order, 1 where the line was turned in an odd number of rounds; listing, n positions of lines, chain by chain with the
 * members' firsts and numbers, in the order in which the chain's coordinates pass them; merged, the coordinates of the
 * chains of several lines with their extras, one chain behind another, without repeats of x and y. A chain of one line
 * names the line's own coordinates and is not copied. Chains come in the order of their starts, lines that pass through
 * last. A loop has at least three coordinates, of which the first and the last agree in x and y bit for bit: a turning
 * loop, a line there and back, a closed line that passes through.
 *
 * Written too are boxes, four numbers each: the least x and y of a chain's coordinates and the greatest, of equal ones
 * the bits of the earlier. First come the chains' own, then those around the first two and every two that follow, an
 * odd last one alone, and so on level by level up to one around all; none for no chains. A chain without coordinates
 * has plus infinity as least and minus infinity as greatest. lovasuku_window reads them.
 *
 * Which way was a line drawn? Along its chain where its mark is 0, against it where it is 1, with a tolerance too: the
 * lines of a chain of several, in the order of the listing, each backwards where its mark is 1, laid end to end without
 * repeats of x and y, are the chain's coordinates by ==. A chain of one line has that line's coordinates as they are,
 * repeats and all. The members are in another order where round two turned a piece of several lines, which keep the
 * order that they had in it: a mark belongs to the member at its place, not to the line at that place of the listing.
 * Lines from 0,0 to 1.25,0, from 4.5,0 to 3.5,0 and from 3.5,0 to 1.75,0 with tolerance 1 are one chain with members
 * 0 1 2, marks 0 1 1 and listing 0 2 1.
 *
 * Two districts may go through one call. The lines of groups below 2^31 are the first district's and all others the
 * second's, and each may bring 2,048 lines and 32,768 coordinates, every line counted, so that 4,096 lines fit one call
 * only as 2,048 and 2,048. What one district brings does not alter the other's chains: in two accepted calls with the
 * same settings in which a district's lines are the same in the same order, its chains, named by the ranks of its own
 * lines, come in the same order with the same members, marks, listing, coordinates and loops, however the other's lines
 * differ or are mixed in. Positions, firsts and the number of chains may differ. A refusal is of the whole call.
 *
 * Rooms: table 6n, members n, marks n, listing n, merged and spare 2c (3c or 4c with extras), boxes 8n + 64, workspace
 * 192n.
 *
 * Refusals: 12 wkb_type is none of the four. 1 n is above 4,096. 2 groups or kinds are not n numbers. 3 a kind is
 * above 1. 4 the counts do not add up to the coordinates' length, by the numbers of a coordinate. 5 c is above 65,536.
 * 20 a district, either of the two, has more than 2,048 lines. 21 a district has more than 32,768 coordinates. 15 an x
 * or a y of any line is NaN or infinite. 6 switch_on is above 1, or it is 1 and limit is NaN, below -1 or above 1. 17
 * origin_x or origin_y is NaN or infinite, whatever the tolerance is. 7 a room is too short. No tolerance is refused. */
int64_t lovasuku_build(uint32_t wkb_type, const double *coordinates, size_t coordinates_length,
                       const uint32_t *counts, size_t counts_length,
                       const uint32_t *groups, size_t groups_length,
                       const uint8_t *kinds, size_t kinds_length,
                       double tolerance, double origin_x, double origin_y, uint8_t switch_on, double limit,
                       uint32_t *table, size_t table_length,
                       uint32_t *members, size_t members_length,
                       uint8_t *marks, size_t marks_length,
                       uint32_t *listing, size_t listing_length,
                       double *merged, size_t merged_length,
                       double *boxes, size_t boxes_length,
                       double *spare, size_t spare_length,
                       uint64_t *workspace, size_t workspace_length);

/* One exact round, many zooms: building in two calls, of which the second may be made again and again with other
 * tolerances. lovasuku_first is round one: it joins ends that agree bit for bit, and leaves the pieces in lent buffers.
 * The result is the number of pieces.
 *
 * Lent are the type of all lines, the lines as in building, switch_on and limit.
 *
 * Written are, with k pieces, each line that does not pass through in one of them: pieces, 5k numbers, for each piece
 * its first member, its number of members, its source (0 the caller's coordinates, 1 merged), its first coordinate and
 * its number of coordinates; members, positions of lines, piece by piece; marks, in the members' order, 1 where round
 * one turned the line; listing, the lines of each piece in the order in which its coordinates pass them; merged, the
 * coordinates of the pieces of several lines, one piece behind another. A piece of one line names the line's own
 * coordinates. Members, marks and listing have as many numbers as there are lines that do not pass through.
 *
 * Rooms: pieces 5n, members n, marks n, listing n, merged 2c (3c or 4c with extras), workspace 192n.
 *
 * Refusals: 12, 1 to 5, 20, 21, 15 and 6 as of building. 7 a room is too short. There is no tolerance and no origin. */
int64_t lovasuku_first(uint32_t wkb_type, const double *coordinates, size_t coordinates_length,
                       const uint32_t *counts, size_t counts_length,
                       const uint32_t *groups, size_t groups_length,
                       const uint8_t *kinds, size_t kinds_length,
                       uint8_t switch_on, double limit,
                       uint32_t *pieces, size_t pieces_length,
                       uint32_t *members, size_t members_length,
                       uint8_t *marks, size_t marks_length,
                       uint32_t *listing, size_t listing_length,
                       double *merged, size_t merged_length,
                       uint64_t *workspace, size_t workspace_length);

/* Finishes pieces: round two, where tolerance is above 0, and the lines that pass through behind them. The result is the
 * number of chains.
 *
 * Lent are the lines once more, k pieces of them, and the settings of building. The pieces are not altered, and may be
 * lent again. After lovasuku_first on the same lines with the same switch_on and limit, the answer and all that is
 * written are lovasuku_build's.
 *
 * Pieces may come from anywhere, in slices of any lengths. What is not refused by 19 is finished as it is lent: pieces in
 * any order, members and listing of a piece in any order, gaps between coordinates and coordinates that pieces share,
 * any finite coordinates, one or with repeats. A piece that round two joins with none keeps them as they are.
 *
 * Written are table, members, marks, listing, merged and boxes, as by lovasuku_build. A mark is 1 where the line was turned
 * in an odd number of rounds, of which the first is told by the mark that is lent.
 *
 * Rooms: table 6n, members n, marks n, listing n, merged 2c (3c or 4c with extras), boxes 8n + 64, workspace 192n. No
 * spare is needed.
 *
 * Refusals: 12, 1 to 5, 20, 21, 15, 6 and 17 as of building. 19 the k records are not wholly in pieces; or the members,
 * or the listing, taken piece by piece as the records name them, are not the lines that do not pass through, each once,
 * or the two name different lines in a piece; or a piece has no line or no coordinate, has lines of several groups,
 * reaches outside piece_members, piece_marks, piece_listing or its coordinates, or has a coordinate whose x or y is NaN or
 * infinite; or a piece of one line is not the line's own coordinates in source 0, at their own place, or a piece of
 * several is not in source 1; or all pieces together have more than c coordinates, or a mark that a record names is above
 * 1. 7 a room is too short. */
int64_t lovasuku_finish(uint32_t wkb_type, const double *coordinates, size_t coordinates_length,
                        const uint32_t *counts, size_t counts_length,
                        const uint32_t *groups, size_t groups_length,
                        const uint8_t *kinds, size_t kinds_length,
                        const uint32_t *pieces, size_t pieces_length,
                        const uint32_t *piece_members, size_t piece_members_length,
                        const uint8_t *piece_marks, size_t piece_marks_length,
                        const uint32_t *piece_listing, size_t piece_listing_length,
                        const double *piece_merged, size_t piece_merged_length,
                        uint64_t k,
                        double tolerance, double origin_x, double origin_y, uint8_t switch_on, double limit,
                        uint32_t *table, size_t table_length,
                        uint32_t *members, size_t members_length,
                        uint8_t *marks, size_t marks_length,
                        uint32_t *listing, size_t listing_length,
                        double *merged, size_t merged_length,
                        double *boxes, size_t boxes_length,
                        uint64_t *workspace, size_t workspace_length);

/* Selects, of the ends at one node, the pairs that continue each other best. The result is the number of pairs.
 *
 * Lent are, for d ends: present, d marks, 1 where the end has a direction, else 0; directions, 2d numbers x, y,
 * of which those of an absent end are not looked at; pieces, d numbers, the piece of each end. The measure of two
 * ends is the dot product of their directions, held within -1 to 1. Over all ends i below j of different pieces,
 * both present, the pairs with a measure at or below limit are taken in order of measure, then i, then j, each
 * if neither end is taken. A NaN is never at or below.
 *
 * Written are pairs, two numbers for each pair, the lower end first, in the order of selection.
 *
 * Rooms: pairs d, workspace 64d.
 *
 * This is the plain route, over all pairs of ends.
 *
 * Refusals: 1 d is above 8,192. 2 present is not d marks, or directions are not 2d numbers. 3 a presence mark is
 * above 1. 6 limit is NaN, below -1 or above 1. 7 a room is too short. 8 a piece number occurs more than twice. */
int64_t lovasuku_pairs_plain(const uint8_t *present, size_t present_length,
                             const double *directions, size_t directions_length,
                             const uint32_t *pieces, size_t pieces_length,
                             double limit,
                             uint32_t *pairs, size_t pairs_length,
                             uint64_t *workspace, size_t workspace_length);

/* The same pairs by the indexed route: an index over the directions, fast where many ends meet.
 *
 * Rooms and refusals are those of the plain route, and then: 9 a present direction is not finite. */
int64_t lovasuku_pairs_indexed(const uint8_t *present, size_t present_length,
                               const double *directions, size_t directions_length,
                               const uint32_t *pieces, size_t pieces_length,
                               double limit,
                               uint32_t *pairs, size_t pairs_length,
                               uint64_t *workspace, size_t workspace_length);

/* The same pairs by the chosen route: the plain one below 32 ends or where a present direction is not finite,
 * else the indexed one.
 *
 * Rooms and refusals are those of the plain route. */
int64_t lovasuku_pairs_chosen(const uint8_t *present, size_t present_length,
                              const double *directions, size_t directions_length,
                              const uint32_t *pieces, size_t pieces_length,
                              double limit,
                              uint32_t *pairs, size_t pairs_length,
                              uint64_t *workspace, size_t workspace_length);

/* Why wasn't this bend joined? The result is the reason of ends i and j, which may come in either order, as a number
 * of enum lovasuku_reason. The first that applies: 0 their pair is selected. 1 they are of the same piece. 2 one of
 * them has no direction. 3 their measure is not at or below limit. 4 + p their pair qualifies, but selected pair p
 * comes before it and has one of its ends, and no earlier selected pair has one. Selected pairs are counted from 0 in
 * the order of selection: pair p is pairs[2p] and pairs[2p + 1].
 *
 * Lent, written and rooms are those of the plain route, whatever the reason. How many pairs were written, the plain
 * route tells.
 *
 * Refusals are those of the plain route, and then: 26 i or j is not below d, or they are equal. */
int64_t lovasuku_why(const uint8_t *present, size_t present_length,
                     const double *directions, size_t directions_length,
                     const uint32_t *pieces, size_t pieces_length,
                     double limit, uint32_t i, uint32_t j,
                     uint32_t *pairs, size_t pairs_length,
                     uint64_t *workspace, size_t workspace_length);

/* The limit that an offset stands for: a bend of so many millimetres of offset per metre run, a whole number from 0
 * (straight on, -1) to 1,000 (45 degrees, about -0.70711). The result is the limit's 64 bits.
 *
 * The limit is minus M / 2^53, where M is the largest whole number with M * M * (1,000,000 + offset * offset) at
 * most 1,000,000 * 2^106: exactly this double. A greater offset never gives a lower limit.
 *
 * The bits of a number below 0 are themselves negative as an int64_t: compare the answer with -22 and with nothing
 * else. No limit has these bits.
 *
 * Refusals: 22 offset is above 1,000. */
int64_t lovasuku_offset_limit(uint32_t offset);

/* The calls above with an offset in the limit's place. Each is the call with lovasuku_offset_limit's limit, and 22 is
 * in place of the limit's part of 6.
 *
 * Of building: a switch_on above 1 is 6, whatever the offset is. Where it is 1, an offset above 1,000 is 22, where the
 * limit would have been 6. Where it is 0 the offset is not looked at. */
int64_t lovasuku_build_offset(uint32_t wkb_type, const double *coordinates, size_t coordinates_length,
                              const uint32_t *counts, size_t counts_length,
                              const uint32_t *groups, size_t groups_length,
                              const uint8_t *kinds, size_t kinds_length,
                              double tolerance, double origin_x, double origin_y, uint8_t switch_on, uint32_t offset,
                              uint32_t *table, size_t table_length,
                              uint32_t *members, size_t members_length,
                              uint8_t *marks, size_t marks_length,
                              uint32_t *listing, size_t listing_length,
                              double *merged, size_t merged_length,
                              double *boxes, size_t boxes_length,
                              double *spare, size_t spare_length,
                              uint64_t *workspace, size_t workspace_length);

/* Of pairing, by each route: an offset above 1,000 is 22, after 3 and before 7. The pairs under one offset are the
 * beginning of those under a greater one. */
int64_t lovasuku_pairs_plain_offset(const uint8_t *present, size_t present_length,
                                    const double *directions, size_t directions_length,
                                    const uint32_t *pieces, size_t pieces_length,
                                    uint32_t offset,
                                    uint32_t *pairs, size_t pairs_length,
                                    uint64_t *workspace, size_t workspace_length);

int64_t lovasuku_pairs_indexed_offset(const uint8_t *present, size_t present_length,
                                      const double *directions, size_t directions_length,
                                      const uint32_t *pieces, size_t pieces_length,
                                      uint32_t offset,
                                      uint32_t *pairs, size_t pairs_length,
                                      uint64_t *workspace, size_t workspace_length);

int64_t lovasuku_pairs_chosen_offset(const uint8_t *present, size_t present_length,
                                     const double *directions, size_t directions_length,
                                     const uint32_t *pieces, size_t pieces_length,
                                     uint32_t offset,
                                     uint32_t *pairs, size_t pairs_length,
                                     uint64_t *workspace, size_t workspace_length);

/* The chain question: does record k of a table name a chain? The result is 0, which says yes.
 *
 * Lent are the type of the chains, the coordinates and the merged coordinates that the table speaks of, and the table,
 * of which any may come from anywhere. The last number of a record is not looked at. Nothing is written and no room is
 * needed.
 *
 * Refusals: 12 wkb_type is none of the four. 10 record k is not wholly in the table, its source is above 1, or the sum
 * of its first coordinate and its number of coordinates, times the numbers of a coordinate, is above the length of the
 * slice that its source names. */
int64_t lovasuku_chain(uint32_t wkb_type, const double *coordinates, size_t coordinates_length,
                       const double *merged, size_t merged_length,
                       const uint32_t *table, size_t table_length,
                       uint64_t k);

/* What lies in this window? Lists the chains whose boxes meet it. The result is their number.
 *
 * Lent are boxes of k chains as building writes them, which may come from anywhere, and a window: the least x and y and
 * the greatest. A box meets the window where the two overlap or touch; one with a NaN, or with a least above its
 * greatest, meets none. A chain is listed where its own box and all boxes above it meet the window; a box that is not
 * wholly lent is not looked at. For boxes as building left them, with k its result, these are the chains whose
 * coordinates' extent meets the window.
 *
 * Written is found, a number for each chain found, ascending.
 *
 * Rooms: boxes 8k + 64 numbers, found k.
 *
 * Refusals: 18 the window has a NaN, or a least above its greatest. 7 boxes are fewer than 8k + 64 numbers, found is
 * shorter than k, or k is above 2^32. Infinities may bound a window. */
int64_t lovasuku_window(const double *boxes, size_t boxes_length, uint64_t k,
                        double least_x, double least_y, double greatest_x, double greatest_y,
                        uint32_t *found, size_t found_length);

/* Chains made elsewhere: are these chains of these lines acceptable? The result is 0, which says yes.
 *
 * Lent are the type of all lines, the lines as in building, a tolerance with the origin of its cells, and the chains:
 * the first k records of a table, as building writes them, of which the last number, the loop's, is not looked at;
 * listing, positions of lines, of which a record's first two numbers name a part, in the order of travel; and merged,
 * the coordinates of source 1. Any of them may come from anywhere. Records may stand in any order, share parts of
 * listing and merged and leave gaps in them; what lies behind record k - 1 is not looked at.
 *
 * They are acceptable where every line stands in exactly one chain, once, and every chain fits its lines. A chain of no
 * lines has no coordinates. A chain of one line has that line's coordinates, bit for bit, with their extras, as the line
 * was drawn; they may stand in either source. The lines of any other chain are of one group, none of them passes
 * through, and a direction can be chosen for each such that, one behind another as they are listed, they meet: where a
 * line is left and the next is entered, x and y agree bit for bit, or, where tolerance is above 0, lie in one cell; and
 * such that these lines, each in its direction, laid end to end without repeats of x and y, are the chain's coordinates:
 * as many, and equal in x and y by ==. Their extras are not looked at.
 *
 * So what lovasuku_build has made in one call, with its listing (and not with its members), is acceptable under the same
 * tolerance and origin; that is proved. Acceptable too are chains that it would have cut, turned or joined otherwise, as
 * long as their lines meet: no switch and no limit are asked for.
 *
 * Nothing is written but the workspace.
 *
 * Rooms: workspace 192n.
 *
 * Refusals: 12, 1 to 5, 20, 21, 15 and 17 as of building. 7 workspace is too short. 23 one of the records 0 to k - 1 is
 * none that lovasuku_chain answers with 0 for, reaches outside the listing, or lists a position that is not below n. 24
 * the chains are not acceptable otherwise. All records are looked at for 23 before one is for 24. */
int64_t lovasuku_check(uint32_t wkb_type, const double *coordinates, size_t coordinates_length,
                       const uint32_t *counts, size_t counts_length,
                       const uint32_t *groups, size_t groups_length,
                       const uint8_t *kinds, size_t kinds_length,
                       double tolerance, double origin_x, double origin_y,
                       const uint32_t *table, size_t table_length, uint64_t k,
                       const uint32_t *listing, size_t listing_length,
                       const double *merged, size_t merged_length,
                       uint64_t *workspace, size_t workspace_length);

/* WKB in: reads lines from records of OGC 06-103r4. The result is the number of records.
 *
 * Lent are run, bytes, record behind record; and lengths, the length in bytes of each record. A record is a byte order
 * (0 the greatest byte first, 1 the least), a type and a count of coordinates, four bytes each, and for each
 * coordinate its doubles: x, y, and the extras of its type. All records have one type; each may have either byte
 * order. There is no limit on the number of records, and a line of no coordinates or of one is a line.
 *
 * Written are coordinates, one line behind another, every bit of a double kept, those of a NaN too; counts, how many
 * coordinates each line has; and wkb_type, one number, the type of the records, which is 2 where there are none. All
 * three go into lovasuku_build as they are, which refuses an x or a y that is NaN (15).
 *
 * Rooms: coordinates, two numbers, three or four for each coordinate of all records; counts, a number for each record;
 * wkb_type, one number. For n records in a run of b bytes that is (b - 9n) / 8 numbers, n and 1, of whichever type.
 *
 * Refusals, before any record: 13 the lengths do not add up to the run's. Then record by record, and the first bad one
 * decides: 13 it is shorter than a header of 9 bytes. 11 its byte order is neither 0 nor 1. 12 its type is none of 2,
 * 1002, 2002 and 3002. 25 its type differs from the first record's. 13 it is not 9 bytes long and 8 for each number of
 * the coordinates of its count. After all records: 14 a room is too short, for no records too.
 *
 * What others write that is refused by 12: what Shapely and GDAL's ExportToWkb write by default for heights
 * (0x80000002, which is not ISO: GEOS's writer with the flavour ISO, ExportToIsoWkb or PostGIS's ST_AsBinary write
 * 1002); what PostGIS's ST_AsEWKB marks with an SRID (0x20000002; ST_AsBinary writes none); every other geometry; and
 * Shapely 1.8's empty LineString(), which it writes as a collection. */
int64_t lovasuku_read_wkb(const uint8_t *run, size_t run_length,
                          const uint64_t *lengths, size_t lengths_length,
                          double *coordinates, size_t coordinates_length,
                          uint32_t *counts, size_t counts_length,
                          uint32_t *wkb_type, size_t wkb_type_length);

/* WKB out: writes the first k chains of a table, each as one record. The result is the number of bytes.
 *
 * Lent are the type of all records, the coordinates and the merged coordinates that the table speaks of, the table,
 * and the byte order of all records, 0 the greatest byte first, 1 the least. Any of them may come from anywhere, and k
 * may be any number.
 *
 * Written are run, record behind record, each of that type with the chain's coordinates, every bit of a double kept;
 * and lengths, the length in bytes of each record. lovasuku_read_wkb reads from these the chains' coordinates and
 * counts again; and where all lines of a run were in one byte order, writing them in it gives the run.
 *
 * Rooms: run, 9 bytes for each chain and 8 for each number of its coordinates; lengths, k numbers.
 *
 * Refusals: 12 wkb_type is none of the four. 16 order is neither 0 nor 1. 10 one of the records 0 to k - 1 is none
 * that lovasuku_chain answers with 0 for. 14 a room is too short. With k = 0 no room is
 * needed, and nothing is written.
 *
 * A line of one coordinate is written where the input had one, or where two lines merged into one: GEOS and PostGIS
 * refuse to read it, GDAL does not. */
int64_t lovasuku_write_wkb(uint32_t wkb_type, const double *coordinates, size_t coordinates_length,
                           const double *merged, size_t merged_length,
                           const uint32_t *table, size_t table_length,
                           uint64_t k, uint8_t order,
                           uint8_t *run, size_t run_length,
                           uint64_t *lengths, size_t lengths_length);

#ifdef __cplusplus
}
#endif

#endif
