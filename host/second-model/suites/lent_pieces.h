// Lent pieces ([9]): pieces as no round one leaves them, which pass 19.
#pragma once

#include "refused.h"

namespace suites {

// A piece before it is laid out in slices. Source 1 brings its own coordinates.
struct Loose {
    std::vector<u32> members, listing;
    std::vector<u8> marks;
    u32 source, first, count;
    Coordinates own;
};

struct LoosePieces {
    Lines lines;
    std::vector<Loose> pieces;
    bool gaps = false;
    u8 mark_in_gaps = 0;
    double number_in_gaps = 1;
};

inline Place any_place(Random& random) {
    const auto value = [&] { return random.of({0.0, -0.0, 1.0, 2.0, 0.25}); };
    return {value(), value()};
}

inline Coordinates any_coordinates(Random& random, u32 type, u64 count) {
    std::vector<u64> numbers;
    for (u64 i = 0; i < count; ++i) add_coordinate(random, type, any_place(random), numbers);
    return part(numbers, stride(type), 0, count);
}

// Lines of two groups, some of which pass through and some of which are the line before once more.
inline Lines lines_with_twins(Random& random) {
    Lines lines;
    lines.type = any_type(random);
    const u64 n = random.between(2, random.one_in(20) ? 60 : 8);
    for (u64 i = 0; i < n; ++i) {
        Places places(random.between(2, 4));
        for (Place& place : places) place = any_place(random);
        if (i > 0 && random.one_in(4))
            copy_line(Lines(lines), i - 1, lines);
        else
            add_line(random, lines, places, random.one_in(3) ? 0x80000005u : 5, random.one_in(5));
    }
    return lines;
}

// One to four lines of one group; those of several have any coordinates, at most as many as their lines.
inline Loose take_piece(Random& random, const Lines& lines, std::vector<u32>& left) {
    Loose piece{{left.back()}, {}, {}, 0, 0, 0, {}};
    left.pop_back();
    u64 count = lines.counts[piece.members[0]];
    for (u64 wanted = random.below(4), i = 0; wanted > 0 && i < left.size();) {
        if (lines.groups[left[i]] != lines.groups[piece.members[0]]) {
            ++i;
            continue;
        }
        count += lines.counts[left[i]];
        piece.members.push_back(left[i]);
        left.erase(left.begin() + i64(i));
        --wanted;
    }
    piece.listing = piece.members;
    random.shuffle(piece.listing);
    for (u64 i = 0; i < piece.members.size(); ++i) piece.marks.push_back(u8(random.below(2)));
    piece.source = piece.members.size() > 1;
    if (piece.source == 0) piece.first = u32(starts(lines)[piece.members[0]]);
    if (piece.source == 1) piece.own = any_coordinates(random, lines.type, random.between(1, count));
    piece.count = u32(piece.source == 1 ? piece.own.size() : count);
    return piece;
}

inline LoosePieces sound_pieces(Random& random) {
    LoosePieces loose;
    loose.lines = lines_with_twins(random);
    std::vector<u32> left;
    for (u32 i = 0; i < loose.lines.counts.size(); ++i)
        if (!passes_through(loose.lines, i)) left.push_back(i);
    random.shuffle(left);
    while (!left.empty()) loose.pieces.push_back(take_piece(random, loose.lines, left));
    loose.gaps = random.coin();
    return loose;
}

// ---- Slices

// The pieces in slices, in any order, with gaps between them.
inline PieceRooms laid_out(Random& random, const LoosePieces& loose) {
    PieceRooms rooms;
    const u64 width = stride(loose.lines.type);
    rooms.pieces.resize(5 * loose.pieces.size());
    std::vector<u64> order;
    for (u64 i = 0; i < loose.pieces.size(); ++i) order.push_back(i);
    random.shuffle(order);
    for (u64 piece : order) {
        const Loose& it = loose.pieces[piece];
        if (loose.gaps && random.coin()) {
            rooms.members.push_back(u32(random.bits()));
            rooms.listing.push_back(u32(random.bits()));
            rooms.marks.push_back(loose.mark_in_gaps);
            rooms.merged.insert(rooms.merged.end(), width, bits(loose.number_in_gaps));
        }
        const u32 first = it.source == 0 ? it.first : u32(rooms.merged.size() / width);
        const u32 record[] = {u32(rooms.members.size()), u32(it.members.size()), it.source, first, it.count};
        std::copy(record, record + 5, rooms.pieces.begin() + i64(5 * piece));
        rooms.members.insert(rooms.members.end(), it.members.begin(), it.members.end());
        rooms.listing.insert(rooms.listing.end(), it.listing.begin(), it.listing.end());
        rooms.marks.insert(rooms.marks.end(), it.marks.begin(), it.marks.end());
        for (const Coordinate& at : it.own)
            rooms.merged.insert(rooms.merged.end(), at.begin(), at.begin() + i64(width));
    }
    return rooms;
}

}  // namespace suites
