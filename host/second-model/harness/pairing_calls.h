// Pairing calls: the three routes, with a limit or an offset in its place, why, and the limit of an offset.
#pragma once

#include "calls.h"

namespace harness {

struct LentEnds {
    Lent<u8> present;
    Lent<double> directions;
    Lent<u32> pieces;
    LentEnds(Comparison& call, const Ends& ends)
        : present(call, "present", ends.present),
          directions(call, "directions", ends.directions),
          pieces(call, "pieces", ends.pieces) {}
};
#define ENDS(lent) SLICE((lent).present), SLICE((lent).directions), SLICE((lent).pieces)

struct LentPairRooms {
    Lent<u32> pairs;
    Lent<u64> workspace;
    LentPairRooms(Comparison& call, const PairRooms& before, const PairRooms& after)
        : pairs(call, "pairs", before.pairs, after.pairs),
          workspace(call, "workspace", before.workspace, after.workspace) {}
};
#define PAIR_ROOMS(lent) SLICE((lent).pairs), SLICE((lent).workspace)

struct RouteCalls {
    const char *name, *name_by_offset;
    decltype(&lovasuku_pairs_plain) by_limit;
    decltype(&lovasuku_pairs_plain_offset) by_offset;
};

inline RouteCalls calls_of(Route route) {
    switch (route) {
        case Route::plain:
            return {"pairs_plain", "pairs_plain_offset", lovasuku_pairs_plain, lovasuku_pairs_plain_offset};
        case Route::indexed:
            return {"pairs_indexed", "pairs_indexed_offset", lovasuku_pairs_indexed, lovasuku_pairs_indexed_offset};
        default:
            return {"pairs_chosen", "pairs_chosen_offset", lovasuku_pairs_chosen, lovasuku_pairs_chosen_offset};
    }
}

inline i64 put_pairs(const Ends& ends, Route route, const PairRooms& rooms) {
    PairRooms after = rooms;
    const i64 wanted = model::pairs(ends, route, after);
    const RouteCalls calls = calls_of(route);
    Comparison call(ends.by_offset ? calls.name_by_offset : calls.name, wanted);
    const LentEnds in(call, ends);
    const LentPairRooms out(call, rooms, after);
    if (ends.by_offset)
        call.ends(calls.by_offset(ENDS(in), ends.offset, PAIR_ROOMS(out)));
    else
        call.ends(calls.by_limit(ENDS(in), ends.limit, PAIR_ROOMS(out)));
    return wanted;
}

inline i64 put_why(const Ends& ends, u32 i, u32 j, const PairRooms& rooms) {
    PairRooms after = rooms;
    const i64 wanted = model::why(ends, i, j, after);
    Comparison call("why", wanted);
    const LentEnds in(call, ends);
    const LentPairRooms out(call, rooms, after);
    call.ends(lovasuku_why(ENDS(in), ends.limit, i, j, PAIR_ROOMS(out)));
    return wanted;
}

inline void put_offset_limit(u32 offset) {
    const i64 wanted = offset > 1000 ? -22 : static_cast<i64>(bits(offset_limit(offset)));
    Comparison call("offset_limit", wanted);
    call.ends(lovasuku_offset_limit(offset));
}

}  // namespace harness
