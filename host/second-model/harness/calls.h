// Calls: each call of the header, put to the library and to the model on the same rooms. Each function leaves in the
// rooms what the model wrote and answers as the model did.
#pragma once

#include <lovasuku.h>
#include "../model/checking.h"
#include "../model/pieces.h"
#include "guard.h"

namespace harness {

// A slice as the header takes it: a pointer and a length in elements.
#define SLICE(lent) (lent).pointer(), (lent).length()

// The size of the cells and their origin.
#define CELLS(settings) (settings).tolerance, (settings).origin_x, (settings).origin_y

// The lines as every call lends them.
struct LentLines {
    LentDoubles coordinates;
    Lent<u32> counts, groups;
    Lent<u8> kinds;
    LentLines(Comparison& call, const Lines& lines)
        : coordinates(call, "coordinates", lines.coordinates),
          counts(call, "counts", lines.counts),
          groups(call, "groups", lines.groups),
          kinds(call, "kinds", lines.kinds) {}
};
#define LINES(lent) SLICE((lent).coordinates), SLICE((lent).counts), SLICE((lent).groups), SLICE((lent).kinds)

struct LentChains {
    Lent<u32> table, members;
    Lent<u8> marks;
    Lent<u32> listing;
    LentDoubles merged, boxes;
    Lent<u64> workspace;
    LentChains(Comparison& call, const ChainRooms& before, const ChainRooms& after)
        : table(call, "table", before.table, after.table),
          members(call, "members", before.members, after.members),
          marks(call, "marks", before.marks, after.marks),
          listing(call, "listing", before.listing, after.listing),
          merged(call, "merged", before.merged, after.merged),
          boxes(call, "boxes", before.boxes, after.boxes),
          workspace(call, "workspace", before.workspace, after.workspace) {}
};
#define CHAINS(lent) \
    SLICE((lent).table), SLICE((lent).members), SLICE((lent).marks), SLICE((lent).listing), SLICE((lent).merged), \
        SLICE((lent).boxes)

struct LentPieceRooms {
    Lent<u32> pieces, members;
    Lent<u8> marks;
    Lent<u32> listing;
    LentDoubles merged;
    LentPieceRooms(Comparison& call, const PieceRooms& before, const PieceRooms& after)
        : pieces(call, "pieces", before.pieces, after.pieces),
          members(call, "piece_members", before.members, after.members),
          marks(call, "piece_marks", before.marks, after.marks),
          listing(call, "piece_listing", before.listing, after.listing),
          merged(call, "piece_merged", before.merged, after.merged) {}
};
#define PIECES(lent) \
    SLICE((lent).pieces), SLICE((lent).members), SLICE((lent).marks), SLICE((lent).listing), SLICE((lent).merged)

inline i64 put_build(const Lines& lines, const Settings& settings, ChainRooms& rooms) {
    ChainRooms after = rooms;
    const i64 wanted = model::build(lines, settings, after);
    Comparison call(settings.by_offset ? "build_offset" : "build", wanted);
    const LentLines in(call, lines);
    const LentChains out(call, rooms, after);
    const LentDoubles spare(call, "spare", rooms.spare, after.spare);
    if (settings.by_offset)
        call.ends(lovasuku_build_offset(lines.type, LINES(in), CELLS(settings), settings.switch_on, settings.offset,
                                        CHAINS(out), SLICE(spare), SLICE(out.workspace)));
    else
        call.ends(lovasuku_build(lines.type, LINES(in), CELLS(settings), settings.switch_on, settings.limit,
                                 CHAINS(out), SLICE(spare), SLICE(out.workspace)));
    rooms = after;
    return wanted;
}

inline i64 put_first(const Lines& lines, const Settings& settings, PieceRooms& rooms) {
    PieceRooms after = rooms;
    const i64 wanted = model::first(lines, settings, after);
    Comparison call("first", wanted);
    const LentLines in(call, lines);
    const LentPieceRooms out(call, rooms, after);
    const Lent<u64> workspace(call, "workspace", rooms.workspace, after.workspace);
    call.ends(lovasuku_first(lines.type, LINES(in), settings.switch_on, settings.limit, PIECES(out), SLICE(workspace)));
    rooms = after;
    return wanted;
}

inline i64 put_finish(const Lines& lines, const PieceRooms& pieces, u64 k, const Settings& settings,
                      ChainRooms& rooms) {
    ChainRooms after = rooms;
    const i64 wanted = model::finish(lines, pieces, k, settings, after);
    Comparison call("finish", wanted);
    const LentLines in(call, lines);
    const LentPieceRooms lent(call, pieces, pieces);
    const LentChains out(call, rooms, after);
    call.ends(lovasuku_finish(lines.type, LINES(in), PIECES(lent), k, CELLS(settings), settings.switch_on,
                              settings.limit, CHAINS(out), SLICE(out.workspace)));
    rooms = after;
    return wanted;
}

inline i64 put_check(const Delivery& delivery, std::vector<u64> workspace_before) {
    std::vector<u64> after = workspace_before;
    const i64 wanted = model::check(delivery, after);
    Comparison call("check", wanted);
    const LentLines in(call, delivery.lines);
    const Lent<u32> table(call, "table", delivery.table), listing(call, "listing", delivery.listing);
    const LentDoubles merged(call, "merged", delivery.merged);
    const Lent<u64> workspace(call, "workspace", workspace_before, after);
    call.ends(lovasuku_check(delivery.lines.type, LINES(in), CELLS(delivery.settings), SLICE(table), delivery.k,
                             SLICE(listing), SLICE(merged), SLICE(workspace)));
    return wanted;
}

inline i64 put_chain(const Chains& chains, u64 k) {
    const i64 wanted = model::chain(chains, k);
    Comparison call("chain", wanted);
    const LentDoubles coordinates(call, "coordinates", chains.coordinates), merged(call, "merged", chains.merged);
    const Lent<u32> table(call, "table", chains.table);
    call.ends(lovasuku_chain(chains.type, SLICE(coordinates), SLICE(merged), SLICE(table), k));
    return wanted;
}

inline i64 put_window(const std::vector<u64>& boxes, u64 k, const Box& window, std::vector<u32>& found) {
    std::vector<u32> after = found;
    const i64 wanted = model::window(boxes, k, window, after);
    Comparison call("window", wanted);
    const LentDoubles in(call, "boxes", boxes);
    const Lent<u32> out(call, "found", found, after);
    call.ends(lovasuku_window(SLICE(in), k, window.least_x, window.least_y, window.greatest_x, window.greatest_y,
                              SLICE(out)));
    found = after;
    return wanted;
}

inline i64 put_write(const Chains& chains, u64 k, u8 order, std::vector<u8>& run, std::vector<u64>& lengths) {
    std::vector<u8> run_after = run;
    std::vector<u64> lengths_after = lengths;
    const i64 wanted = model::write_wkb(chains, k, order, run_after, lengths_after);
    Comparison call("write_wkb", wanted);
    const LentDoubles coordinates(call, "coordinates", chains.coordinates), merged(call, "merged", chains.merged);
    const Lent<u32> table(call, "table", chains.table);
    const Lent<u8> run_room(call, "run", run, run_after);
    const Lent<u64> lengths_room(call, "lengths", lengths, lengths_after);
    call.ends(lovasuku_write_wkb(chains.type, SLICE(coordinates), SLICE(merged), SLICE(table), k, order,
                                 SLICE(run_room), SLICE(lengths_room)));
    run = run_after;
    lengths = lengths_after;
    return wanted;
}

inline i64 put_read(const std::vector<u8>& run, const std::vector<u64>& lengths, WkbRooms& rooms) {
    WkbRooms after = rooms;
    const i64 wanted = model::read_wkb(run, lengths, after);
    Comparison call("read_wkb", wanted);
    const Lent<u8> run_in(call, "run", run);
    const Lent<u64> lengths_in(call, "lengths", lengths);
    const LentDoubles coordinates(call, "coordinates", rooms.coordinates, after.coordinates);
    const Lent<u32> counts(call, "counts", rooms.counts, after.counts);
    const Lent<u32> type(call, "wkb_type", rooms.wkb_type, after.wkb_type);
    call.ends(lovasuku_read_wkb(SLICE(run_in), SLICE(lengths_in), SLICE(coordinates), SLICE(counts), SLICE(type)));
    rooms = after;
    return wanted;
}

}  // namespace harness
