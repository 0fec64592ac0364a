// Pairing: which ends at a node continue each other, by the rules' own sentence over all pairs of ends; and [14],
// why two ends are joined or not.
#pragma once

#include <algorithm>
#include <map>

#include "refusals.h"

namespace model {

struct Direction {
    bool present;
    double x, y;
};

// A pair of ends, i below j, with its measure.
struct Pair {
    double measure;
    u32 i, j;
};

// The dot product held within -1 to 1. NaN stays NaN.
inline double measure(const Direction& a, const Direction& b) {
    const double dot = a.x * b.x + a.y * b.y;
    if (dot < -1.0) return -1.0;
    if (dot > 1.0) return 1.0;
    return dot;
}

// By measure, where -0.0 and 0.0 are one, then i, then j.
inline bool comes_before(const Pair& a, const Pair& b) {
    if (a.measure != b.measure) return a.measure < b.measure;
    if (a.i != b.i) return a.i < b.i;
    return a.j < b.j;
}

// Different pieces, both present, a measure at or below the limit, which a NaN never is.
inline std::vector<Pair> qualifying(const std::vector<Direction>& ends, const std::vector<u32>& pieces, double limit) {
    std::vector<Pair> result;
    for (u32 i = 0; i < ends.size(); ++i)
        for (u32 j = i + 1; j < ends.size(); ++j) {
            if (pieces[i] == pieces[j]) continue;
            if (!ends[i].present || !ends[j].present) continue;
            const Pair pair = {measure(ends[i], ends[j]), i, j};
            if (pair.measure <= limit) result.push_back(pair);
        }
    return result;
}

// The qualifying pairs in their order, each taken if neither end is taken.
inline std::vector<Pair> selected(const std::vector<Direction>& ends, const std::vector<u32>& pieces, double limit) {
    std::vector<Pair> pairs = qualifying(ends, pieces, limit), result;
    std::sort(pairs.begin(), pairs.end(), comes_before);
    std::vector<bool> taken(ends.size());
    for (const Pair& pair : pairs) {
        if (taken[pair.i] || taken[pair.j]) continue;
        taken[pair.i] = taken[pair.j] = true;
        result.push_back(pair);
    }
    return result;
}

// ---- The calls

enum class Route { plain, indexed, chosen };

struct Ends {
    std::vector<u8> present;
    std::vector<double> directions;
    std::vector<u32> pieces;
    double limit = 0;
    bool by_offset = false;  // [11]
    u32 offset = 0;
};

struct PairRooms {
    std::vector<u32> pairs;
    std::vector<u64> workspace;
};

inline bool a_piece_is_too_often(const std::vector<u32>& pieces) {
    std::map<u32, int> times;
    for (u32 piece : pieces)
        if (++times[piece] > 2) return true;
    return false;
}

inline bool a_present_direction_is_not_finite(const Ends& ends) {
    for (u64 i = 0; i < ends.pieces.size(); ++i) {
        const bool both_finite = is_finite(ends.directions[2 * i]) && is_finite(ends.directions[2 * i + 1]);
        if (ends.present[i] == 1 && !both_finite) return true;
    }
    return false;
}

// [11] 22 is in place of 6, after 3 and before 7.
inline Ladder pairing_tests(const Ends& ends, const PairRooms& rooms) {
    const u64 d = ends.pieces.size();
    return {
        {1, [=] { return d > 8192; }},
        {2, [=, &ends] { return ends.present.size() != d || ends.directions.size() != 2 * d; }},
        {3, [&] { return any_above_one(ends.present); }},
        {22, [&] { return ends.by_offset && ends.offset > 1000; }},
        {6, [&] { return !ends.by_offset && !is_a_limit(ends.limit); }},
        {7, [=, &rooms] { return rooms.pairs.size() < d || rooms.workspace.size() < 64 * d; }},
        {8, [&] { return a_piece_is_too_often(ends.pieces); }},
    };
}

// 9 is the indexed route's alone.
inline Ladder route_tests(const Ends& ends, Route route) {
    return {{9, [&ends, route] { return route == Route::indexed && a_present_direction_is_not_finite(ends); }}};
}

inline Direction direction(const Ends& ends, u32 end) {
    return {ends.present[end] == 1, ends.directions[2 * end], ends.directions[2 * end + 1]};
}

inline std::vector<Pair> selected(const Ends& ends) {
    std::vector<Direction> directions;
    for (u32 i = 0; i < ends.pieces.size(); ++i) directions.push_back(direction(ends, i));
    return selected(directions, ends.pieces, ends.by_offset ? offset_limit(ends.offset) : ends.limit);
}

// Two numbers a pair, the lower end first, in the order of selection; the workspace is zero over 64d.
inline void write(const std::vector<Pair>& pairs, u64 d, PairRooms& rooms) {
    for (u64 p = 0; p < pairs.size(); ++p) {
        rooms.pairs[2 * p] = pairs[p].i;
        rooms.pairs[2 * p + 1] = pairs[p].j;
    }
    clear(rooms.workspace, 64 * d);
}

inline i64 pairs(const Ends& ends, Route route, PairRooms& rooms) {
    if (int number = refusal(pairing_tests(ends, rooms) + route_tests(ends, route))) return -number;
    const std::vector<Pair> result = selected(ends);
    write(result, ends.pieces.size(), rooms);
    return static_cast<i64>(result.size());
}

// [14] The first reason that applies.
inline i64 reason(const Ends& ends, const std::vector<Pair>& chosen, u32 i, u32 j) {
    for (const Pair& pair : chosen)
        if (pair.i == i && pair.j == j) return 0;
    if (ends.pieces[i] == ends.pieces[j]) return 1;
    if (ends.present[i] == 0 || ends.present[j] == 0) return 2;
    const Pair asked = {measure(direction(ends, i), direction(ends, j)), i, j};
    if (!(asked.measure <= ends.limit)) return 3;
    for (u64 p = 0; p < chosen.size(); ++p) {
        const Pair& pair = chosen[p];
        if (pair.i != i && pair.i != j && pair.j != i && pair.j != j) continue;
        if (!comes_before(pair, asked)) throw Contradiction("[14]: the blocking pair does not come before");
        return 4 + static_cast<i64>(p);
    }
    throw Contradiction("[14]: a qualifying pair is neither selected nor blocked");
}

// [14] Output and refusals are the plain route's, then 26.
inline i64 why(const Ends& ends, u32 i, u32 j, PairRooms& rooms) {
    const u64 d = ends.pieces.size();
    const Ladder two_ends = {{26, [=] { return i >= d || j >= d || i == j; }}};
    if (int number = refusal(pairing_tests(ends, rooms) + two_ends)) return -number;
    const std::vector<Pair> chosen = selected(ends);
    write(chosen, d, rooms);
    return reason(ends, chosen, std::min(i, j), std::max(i, j));
}

}  // namespace model
