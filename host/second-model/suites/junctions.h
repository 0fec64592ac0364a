// Junctions: the pairing calls by every route, why, and offsets.
#pragma once

#include "borders.h"

namespace suites {

inline PairRooms pair_rooms(Random& random, u64 d) {
    return {dirty<u32>(random, d + more(random)), dirty<u64>(random, 64 * d + more(random))};
}

inline void put_every_route(Random& random, const Ends& ends, const PairRooms& rooms) {
    for (Route route : {Route::plain, Route::indexed, Route::chosen}) put_pairs(ends, route, rooms);
    if (ends.by_offset) return;
    const u64 d = ends.pieces.size();
    const auto end = [&] { return u32(random.one_in(12) ? random.bits() : random.below(d + 1)); };
    for (int times = 0; times < 2; ++times) put_why(ends, end(), end(), rooms);
}

// The pairs under one limit are the beginning of those under a greater one.
inline bool begins(const std::vector<Pair>& fewer, const std::vector<Pair>& more) {
    const auto same = [](const Pair& a, const Pair& b) { return a.i == b.i && a.j == b.j; };
    return fewer.size() <= more.size() && std::equal(fewer.begin(), fewer.end(), more.begin(), same);
}

// Each piece once, or once and twice in any order.
inline std::vector<u32> any_pieces(Random& random, u64 d) {
    std::vector<u32> pieces;
    const bool twice = random.coin();
    u32 piece = u32(random.bits());
    for (u64 i = 0; i < d; ++i) {
        pieces.push_back(piece);
        if (!twice || random.coin() || (i > 0 && pieces[i - 1] == piece)) piece += random.coin() ? 1 : 0x1000001;
    }
    if (random.coin()) random.shuffle(pieces);
    return pieces;
}

// ---- Every four ends

constexpr u64 every_four_ends_cases = 7 * 7 * 7 * 7 * 6 * 4;

inline void every_four_ends(Random& random, u64 index) {
    static const Places directions = {{1, 0}, {-1, 0}, {0, 1}, {-0.0, 0}, {0.6, -0.8}, {2, -3}, {not_a_number, 0}};
    static const std::vector<std::vector<u32>> pieces = {{0, 1, 2, 3}, {0, 0, 1, 2}, {0, 1, 0, 2},
                                                         {0, 1, 1, 0}, {5, 5, 4, 4}, {0, 1, 2, 2}};
    Digits digits(index);
    Ends ends;
    ends.limit = std::array<double, 4>{-1, -0.6, 0, 1}[digits.below(4)];
    ends.pieces = pieces[digits.below(6)];
    for (int i = 0; i < 4; ++i) {
        const u64 which = digits.below(7);
        ends.present.push_back(which < 6);
        ends.directions.insert(ends.directions.end(), {directions[which].x, directions[which].y});
    }
    const PairRooms rooms = pair_rooms(random, 4);
    for (Route route : {Route::plain, Route::indexed, Route::chosen}) put_pairs(ends, route, rooms);
    for (u32 pair = 0; pair < 16; ++pair) put_why(ends, pair / 4, pair % 4, rooms);
}

// ---- Few directions

inline Place any_direction(Random& random, u64 several) {
    static const double values[] = {
        0,  -0.0,   1,      -1,      0.6,   -0.6,   0.8,      -0.8,                0.5,      -0.5,      2,
        -2, 1e-300, 5e-324, -5e-324, 1e308, -1e308, 0x1p-537, 0.70710678118654757, -0.70710678118654757,
        0.9999999999999999, infinity, -infinity, not_a_number};
    return {values[random.below(several)], values[random.below(several)]};
}

inline double any_limit(Random& random) {
    static const double values[] = {-1, -0.5, 0, -0.0, 0.5, 1, 0.6, -0.70710678118654757, -0.9999999999999999, 5e-324};
    return random.one_in(4) ? double(i64(random.bits())) * 0x1p-63 : random.of(values);
}

inline void break_ends(Random& random, Ends& ends, PairRooms& rooms) {
    const u64 d = ends.pieces.size();
    switch (random.below(7)) {
        case 0: ends.present.push_back(1); break;
        case 1: shorten(ends.directions); break;
        case 2: if (!ends.present.empty()) random.of(ends.present) = u8(random.between(2, 255)); break;
        case 3:
            ends.limit = random.of({not_a_number, 1.0000000000000002, -infinity});
            ends.offset = random.of({1001u, 0xffffffffu});
            break;
        case 4: one_short(rooms.pairs, d); break;
        case 5: one_short(rooms.workspace, 64 * d); break;
        default: if (d > 2) ends.pieces[0] = ends.pieces[d - 1] = ends.pieces[d / 2];
    }
}

inline void few_directions(Random& random, u64) {
    Ends ends;
    const u64 d = random.below(random.one_in(3) ? (random.one_in(4) ? 130 : 60) : 9);
    ends.pieces = any_pieces(random, d);
    const u64 several = random.of({4, 10, 21, 24});
    Places pool(random.between(1, 6));
    for (Place& direction : pool) direction = any_direction(random, several);
    for (u64 i = 0; i < d; ++i) {
        ends.present.push_back(!random.one_in(8));
        const Place direction = ends.present[i] == 0 && random.coin() ? Place{not_a_number, infinity} : random.of(pool);
        ends.directions.insert(ends.directions.end(), {direction.x, direction.y});
    }
    ends.limit = any_limit(random);
    ends.by_offset = random.one_in(6);
    ends.offset = u32(random.below(1001));
    PairRooms rooms = pair_rooms(random, d);
    for (u64 times = random.one_in(12) ? random.between(1, 2) : 0; times > 0; --times) break_ends(random, ends, rooms);
    put_every_route(random, ends, rooms);
}

// ---- Many ends, for the index

// Directions of one style: of any exponents, nearly opposite, around a circle, or of small whole numbers.
inline Place styled_direction(Random& random, u64 style, const Place& axis) {
    const auto by = [&](int least, int greatest) { return random.sign() * by_exponent(random, least, greatest); };
    switch (style) {
        case 0: return {by(-1074, 1023), by(-1074, 1023)};
        case 1: return {by(505, 515), by(505, 515)};
        case 2: return {by(-540, -530), by(-540, -530)};
        case 3: return {by(-3, 0), random.one_in(8) ? random.of({0.0, -0.0}) : by(-3, 0)};
        case 4: {
            const double turn = std::ldexp(double(random.below(9)) - 4, -50 + int(random.below(45)));
            const double side = random.sign();
            return {side * (axis.x - turn * axis.y), side * (axis.y + turn * axis.x)};
        }
        case 5: {
            const double angle = double(random.below(360)) * 0.017453292519943295;
            return {std::cos(angle), std::sin(angle)};
        }
        default: {
            const double x = double(random.below(7)) - 3, y = double(random.below(7)) - 3;
            const double length = std::sqrt(x * x + y * y);
            return length > 0 ? Place{x / length, y / length} : Place{0, -0.0};
        }
    }
}

// Here and there most directions are others once more, or their opposites.
inline void many_directions(Random& random, u64) {
    Ends ends;
    const u64 d = random.between(32, random.one_in(6) ? 250 : 90), style = random.below(7);
    const bool repeats = random.one_in(4);
    const double angle = double(random.bits() >> 11) * 0x1p-53 * 6.28;
    const Place axis = {std::cos(angle), std::sin(angle)};
    ends.pieces = any_pieces(random, d);
    for (u64 i = 0; i < d; ++i) {
        Place direction = styled_direction(random, random.one_in(10) ? random.below(7) : style, axis);
        if (repeats && i > 0 && !random.one_in(3)) {
            const u64 other = random.below(i);
            const double side = random.sign();
            direction = {side * ends.directions[2 * other], side * ends.directions[2 * other + 1]};
        }
        ends.present.push_back(!random.one_in(15));
        ends.directions.insert(ends.directions.end(), {direction.x, direction.y});
    }
    ends.limit = any_limit(random);
    const double own = measure(direction(ends, u32(random.below(d))), direction(ends, u32(random.below(d))));
    if (random.one_in(3) && own == own) ends.limit = own;
    put_every_route(random, ends, pair_rooms(random, d));
    Ends wider = ends;
    wider.limit = std::min(1.0, ends.limit + 0.25);
    must_agree("[11]: a wider limit undoes a pair", begins(selected(ends), selected(wider)));
}

// The greatest number of ends, and one more.
inline void greatest_ends(Random& random, u64 index) {
    const u64 d = index == 0 ? 8192 : 8193;
    Ends ends;
    for (u64 i = 0; i < d; ++i) {
        ends.pieces.push_back(u32(i / 2 * 7));
        ends.present.push_back(1);
        const Place direction = styled_direction(random, 5, {1, 0});
        ends.directions.insert(ends.directions.end(), {direction.x, direction.y});
    }
    ends.limit = -0.9999;
    put_every_route(random, ends, pair_rooms(random, d));
}

// ---- Offsets ([11])

inline void offsets(Random& random, u64 index) {
    const u32 offset = u32(index), less = offset == 0 ? 0 : offset - 1;
    const bool rises = offset > 1000 || offset_limit(less) <= offset_limit(offset);
    must_agree("[11]: a greater offset gives a lower limit", rises);
    put_offset_limit(u32(index));
    put_offset_limit(u32(random.bits() | 1024));
}

}  // namespace suites
