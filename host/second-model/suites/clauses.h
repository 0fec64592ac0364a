// Clauses: lent pieces that are stretched where 19 allows it, and that break a clause of it, or two.
#pragma once

#include "lent_pieces.h"

namespace suites {

// A piece of one line, or of several, or none where there is none.
inline Loose* find(Random& random, LoosePieces& loose, bool several) {
    std::vector<Loose*> found;
    for (Loose& piece : loose.pieces) {
        const bool names_a_line = !piece.members.empty() && piece.members[0] < loose.lines.counts.size();
        if (names_a_line && (piece.members.size() > 1) == several) found.push_back(&piece);
    }
    return found.empty() ? nullptr : random.of(found);
}
inline Loose* one_line(Random& random, LoosePieces& loose) { return find(random, loose, false); }
inline Loose* several_lines(Random& random, LoosePieces& loose) { return find(random, loose, true); }

inline void replace_own(Loose& piece, Coordinates coordinates) {
    piece.source = 1;
    piece.own = std::move(coordinates);
    piece.count = u32(piece.own.size());
}

// A piece of several gets so many coordinates that all pieces have c and so many more.
inline void fill_up(Random& random, LoosePieces& loose, u64 beyond) {
    Loose* piece = several_lines(random, loose);
    u64 all = 0;
    for (const Loose& each : loose.pieces) all += each.count;
    const u64 wanted = coordinate_count(loose.lines) + beyond;
    if (piece == nullptr || all >= wanted) return;
    replace_own(*piece, any_coordinates(random, loose.lines.type, piece->count + wanted - all));
}

// ---- What passes 19

inline void exactly_c(Random& random, LoosePieces& loose) { fill_up(random, loose, 0); }

inline void marks_that_no_record_names(Random& random, LoosePieces& loose) {
    loose.gaps = true;
    loose.mark_in_gaps = u8(random.between(2, 255));
}

inline void gaps_of_no_place(Random& random, LoosePieces& loose) {
    loose.gaps = true;
    loose.number_in_gaps = no_place(random);
}

inline void any_order(Random& random, LoosePieces& loose) { random.shuffle(loose.pieces); }

// ---- What does not

inline void more_than_c(Random& random, LoosePieces& loose) { fill_up(random, loose, 1); }

inline void a_line_is_missing(Random&, LoosePieces& loose) {
    if (!loose.pieces.empty()) loose.pieces.pop_back();
}

inline void a_line_is_there_twice(Random& random, LoosePieces& loose) {
    if (const Loose* piece = one_line(random, loose)) loose.pieces.push_back(Loose(*piece));
}

inline void lines_that_pass_through(Random&, LoosePieces& loose) {
    const std::vector<u64> own = starts(loose.lines);
    for (u32 i = 0; i < own.size(); ++i) {
        if (!passes_through(loose.lines, i)) continue;
        loose.pieces.push_back({{i}, {i}, {0}, 0, u32(own[i]), loose.lines.counts[i], {}});
    }
}

inline void listings_exchanged(Random& random, LoosePieces& loose) {
    if (loose.pieces.empty()) return;
    Loose &one = random.of(loose.pieces), &other = random.of(loose.pieces);
    if (!one.listing.empty() && !other.listing.empty()) std::swap(one.listing[0], other.listing[0]);
}

inline void a_line_is_listed_twice(Random& random, LoosePieces& loose) {
    if (Loose* piece = several_lines(random, loose)) piece->listing[0] = piece->listing[1];
}

inline void a_member_is_there_twice(Random& random, LoosePieces& loose) {
    if (Loose* piece = several_lines(random, loose)) piece->members[0] = piece->members[1];
}

inline void no_line(Random& random, LoosePieces& loose) {
    loose.pieces.push_back({{}, {}, {}, 1, 0, 1, any_coordinates(random, loose.lines.type, 1)});
}

inline void no_coordinate(Random& random, LoosePieces& loose) {
    if (Loose* piece = several_lines(random, loose)) replace_own(*piece, {});
}

// The last two pieces become one, of two groups where they are of two.
inline void groups_mixed(Random& random, LoosePieces& loose) {
    if (loose.pieces.size() < 2) return;
    const Loose last = loose.pieces.back();
    loose.pieces.pop_back();
    Loose& whole = loose.pieces.back();
    whole.members.insert(whole.members.end(), last.members.begin(), last.members.end());
    whole.listing.insert(whole.listing.end(), last.listing.begin(), last.listing.end());
    whole.marks.insert(whole.marks.end(), last.marks.begin(), last.marks.end());
    replace_own(whole, any_coordinates(random, loose.lines.type, 1));
}

inline void a_coordinate_of_no_place(Random& random, LoosePieces& loose) {
    Loose* piece = several_lines(random, loose);
    if (piece == nullptr || piece->own.empty()) return;
    random.of(piece->own)[random.below(2)] = bits(no_place(random));
}

inline void one_line_in_source_1(Random& random, LoosePieces& loose) {
    if (Loose* piece = one_line(random, loose)) replace_own(*piece, line(loose.lines, piece->members[0]));
}

// Where its twin's coordinates stand, if it has one.
inline void one_line_elsewhere(Random& random, LoosePieces& loose) {
    if (Loose* piece = one_line(random, loose)) piece->first += random.coin() ? piece->count : -piece->count;
}

inline void several_lines_in_source_0(Random& random, LoosePieces& loose) {
    Loose* piece = several_lines(random, loose);
    if (piece == nullptr) return;
    piece->source = 0;
    piece->first = 0;
    piece->own.clear();
}

inline void a_source_above_one(Random& random, LoosePieces& loose) {
    if (!loose.pieces.empty()) random.of(loose.pieces).source = u32(random.between(2, 4));
}

inline void a_mark_above_one(Random& random, LoosePieces& loose) {
    if (Loose* piece = find(random, loose, random.coin())) piece->marks.back() = u8(random.of({2, 255}));
}

inline void a_line_that_is_none(Random& random, LoosePieces& loose) {
    if (Loose* piece = one_line(random, loose))
        piece->members[0] = piece->listing[0] = random.coin() ? u32(loose.lines.counts.size()) : 0xffffffffu;
}

using Change = void (*)(Random&, LoosePieces&);

constexpr Change changes[] = {
    exactly_c,
    marks_that_no_record_names,
    gaps_of_no_place,
    any_order,
    more_than_c,
    a_line_is_missing,
    a_line_is_there_twice,
    lines_that_pass_through,
    listings_exchanged,
    a_line_is_listed_twice,
    a_member_is_there_twice,
    no_line,
    no_coordinate,
    groups_mixed,
    a_coordinate_of_no_place,
    one_line_in_source_1,
    one_line_elsewhere,
    several_lines_in_source_0,
    a_source_above_one,
    a_mark_above_one,
    a_line_that_is_none,
};

// A slice too short, another number of pieces, or a number of a record altered.
inline void break_slices(Random& random, PieceRooms& rooms, u64& k) {
    switch (random.below(8)) {
        case 0: shorten(rooms.pieces); break;
        case 1: shorten(rooms.members); break;
        case 2: shorten(rooms.marks); break;
        case 3: shorten(rooms.listing); break;
        case 4: shorten(rooms.merged); break;
        case 5: k = random.of<u64>({k + 1, k == 0 ? 0 : k - 1, random.bits(), u64(1) << 63, 0x3333333333333334}); break;
        default:
            if (rooms.pieces.empty()) break;
            u32& value = random.of(rooms.pieces);
            value = random.of({value + 1, value - 1, 0u, 0xffffffffu, 0xfffffffeu, u32(random.below(8))});
    }
}

// Pieces as they are, with one change, or with two.
inline void pieces_from_elsewhere(Random& random, u64) {
    LoosePieces loose = sound_pieces(random);
    for (u64 times = random.of({0, 1, 1, 2}); times > 0; --times) random.of(changes)(random, loose);
    PieceRooms pieces = laid_out(random, loose);
    u64 k = loose.pieces.size();
    if (random.one_in(6)) break_slices(random, pieces, k);
    Settings settings;
    settings.tolerance = random.of({0.0, 1.0, 1.0, 0.5});
    settings.switch_on = u8(random.below(2));
    settings.limit = random.of({0.0, 1.0});
    ChainRooms rooms = chain_rooms(random, loose.lines);
    if (random.one_in(10)) break_rooms(random, rooms, loose.lines);
    put_finish(loose.lines, pieces, k, settings, rooms);
}

}  // namespace suites
