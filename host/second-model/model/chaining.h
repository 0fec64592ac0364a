// Chaining: one round. The ends of pieces are grouped in nodes, joined there, and walked from piece to piece; what a
// walk passes becomes one piece.
#pragma once

#include <optional>
#include <tuple>

#include "pairing.h"

namespace model {

// Lines joined so far. Marks stand in the members' order; the listing has the lines as the coordinates pass them ([6]).
struct Piece {
    u32 group;
    std::vector<u32> members;
    std::vector<u8> marks;
    std::vector<u32> listing;
    Coordinates coordinates;
};

// Side 0 is a piece's first coordinate, side 1 its last.
struct End {
    u32 piece, side;
};

// ---- Nodes

struct Key {
    u32 group;
    u64 x, y;
    bool operator<(const Key& other) const {
        return std::tie(group, x, y) < std::tie(other.group, other.x, other.y);
    }
};

// Round one: the group and the 64 bits of x and y.
inline Key exact_key(u32 group, const Coordinate& at) { return {group, at[0], at[1]}; }

// Round two: the group and the cells of x and y, [5] from the origin.
inline Key cell_key(u32 group, const Coordinate& at, const Settings& settings) {
    const i64 column = cell(x(at), settings.origin_x, settings.tolerance);
    const i64 row = cell(y(at), settings.origin_y, settings.tolerance);
    return {group, static_cast<u64>(column), static_cast<u64>(row)};
}

enum class Round { one, two };

// Within a node, ends stand by piece, side 0 first.
inline std::map<Key, std::vector<End>> nodes(const std::vector<Piece>& pieces, Round round, const Settings& settings) {
    std::map<Key, std::vector<End>> result;
    for (u32 p = 0; p < pieces.size(); ++p)
        for (u32 side : {0u, 1u}) {
            const Piece& piece = pieces[p];
            const Coordinate& at = side == 0 ? piece.coordinates.front() : piece.coordinates.back();
            const Key key = round == Round::one ? exact_key(piece.group, at) : cell_key(piece.group, at, settings);
            result[key].push_back({p, side});
        }
    return result;
}

// ---- Joints

// From the end's coordinate to the nearest later one inward that differs by !=.
inline Direction direction(const Piece& piece, u32 side) {
    Coordinates inward = piece.coordinates;
    if (side == 1) std::reverse(inward.begin(), inward.end());
    const auto differs = [&](const Coordinate& at) { return !equal_places(at, inward.front()); };
    const auto other = std::find_if(inward.begin(), inward.end(), differs);
    if (other == inward.end()) return {false, 0, 0};
    const double dx = x(*other) - x(inward.front()), dy = y(*other) - y(inward.front());
    const double length = std::sqrt(dx * dx + dy * dy);
    if (!(length > 0)) return {false, 0, 0};
    return {true, dx / length, dy / length};
}

// Of each piece's two ends, the end that it is joined with.
using Joints = std::vector<std::array<std::optional<End>, 2>>;

inline void join(Joints& joints, End a, End b) {
    joints[a.piece][a.side] = b;
    joints[b.piece][b.side] = a;
}

// Three or more ends: the selected pairs.
inline void join_selected(Joints& joints, const std::vector<Piece>& pieces, const std::vector<End>& node,
                          double limit) {
    std::vector<Direction> directions;
    std::vector<u32> owners;
    for (const End& end : node) {
        directions.push_back(direction(pieces[end.piece], end.side));
        owners.push_back(end.piece);
    }
    for (const Pair& pair : selected(directions, owners, limit)) join(joints, node[pair.i], node[pair.j]);
}

// [11] The limit of a call, which is not looked at with the switch at 0.
inline double limit_of(const Settings& settings) {
    if (settings.switch_on == 0) return 0;
    return settings.by_offset ? offset_limit(settings.offset) : settings.limit;
}

// Two ends of two pieces are joined at any angle, two of one piece are not; of more, if the switch is on.
inline Joints joints_of(const std::vector<Piece>& pieces, Round round, const Settings& settings) {
    Joints joints(pieces.size());
    for (const auto& [key, node] : nodes(pieces, round, settings)) {
        if (node.size() == 2 && node[0].piece != node[1].piece) join(joints, node[0], node[1]);
        if (node.size() > 2 && settings.switch_on == 1) join_selected(joints, pieces, node, limit_of(settings));
    }
    return joints;
}

// ---- Walks

// Back from the start's side 0 to a free end. Back at the start means a ring, walked from the start's side 0.
// A walk's places are pieces with the side by which they are entered.
inline End head(const Joints& joints, u32 start) {
    End at = {start, 0};
    while (const std::optional<End> before = joints[at.piece][at.side]) {
        if (before->piece == start) return {start, 0};
        at = {before->piece, 1 - before->side};
    }
    return at;
}

// Forward from the head until a free end or a visited piece.
inline std::vector<End> walk(const Joints& joints, End at, std::vector<bool>& visited) {
    std::vector<End> result = {at};
    visited[at.piece] = true;
    while (const std::optional<End> next = joints[at.piece][1 - at.side]) {
        if (visited[next->piece]) break;
        at = *next;
        visited[at.piece] = true;
        result.push_back(at);
    }
    return result;
}

// ---- Laying

// Coordinates laid behind others; one equal by == to the last is dropped, [13] whole, so that the earlier one's
// extras remain.
inline void lay(Coordinates& laid, const Coordinates& more) {
    for (const Coordinate& at : more)
        if (laid.empty() || !equal_places(laid.back(), at)) laid.push_back(at);
}

template <class T>
std::vector<T> turned(std::vector<T> list) {
    std::reverse(list.begin(), list.end());
    return list;
}

// Members are never reversed within a piece, coordinates and [6] the listing run in walk direction, and [6] a mark is
// 1 where the line was turned in an odd number of rounds.
inline void append(Piece& whole, const Piece& piece, u32 entered) {
    const bool back = entered == 1;
    for (u32 member : piece.members) whole.members.push_back(member);
    for (u8 mark : piece.marks) whole.marks.push_back(back ? 1 - mark : mark);
    for (u32 position : back ? turned(piece.listing) : piece.listing) whole.listing.push_back(position);
    lay(whole.coordinates, back ? turned(piece.coordinates) : piece.coordinates);
}

// Starts in ascending piece number. A walk of one piece stays untouched.
inline std::vector<Piece> joined(const std::vector<Piece>& pieces, Round round, const Settings& settings) {
    const Joints joints = joints_of(pieces, round, settings);
    std::vector<bool> visited(pieces.size());
    std::vector<Piece> result;
    for (u32 start = 0; start < pieces.size(); ++start) {
        if (visited[start]) continue;
        const std::vector<End> places = walk(joints, head(joints, start), visited);
        if (places.size() == 1) {
            result.push_back(pieces[places[0].piece]);
            continue;
        }
        Piece whole{pieces[start].group, {}, {}, {}, {}};
        for (const End& place : places) append(whole, pieces[place.piece], place.side);
        result.push_back(whole);
    }
    return result;
}

}  // namespace model
