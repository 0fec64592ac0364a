// Building: round one, round two where the tolerance is above 0, and what is written; and [9], round one alone.
#pragma once

#include "boxes.h"
#include "chaining.h"

namespace model {

inline Piece piece_of(const Lines& lines, u32 position) {
    return {lines.groups[position], {position}, {0}, {position}, line(lines, position)};
}

// The lines, each a piece: those that pass through or those that do not.
inline std::vector<Piece> lone_lines(const Lines& lines, bool passing) {
    std::vector<Piece> result;
    for (u32 i = 0; i < lines.counts.size(); ++i)
        if (passes_through(lines, i) == passing) result.push_back(piece_of(lines, i));
    return result;
}

inline std::vector<Piece> round_one(const Lines& lines, const Settings& settings) {
    return joined(lone_lines(lines, false), Round::one, settings);
}

// Runs only if the tolerance is above 0, which NaN is not.
inline std::vector<Piece> round_two(const std::vector<Piece>& pieces, const Settings& settings) {
    return settings.tolerance > 0 ? joined(pieces, Round::two, settings) : pieces;
}

// ---- What is written

// First member, member count, source, first coordinate, coordinate count.
using Record = std::array<u32, 5>;

// A piece of one line names the line's own coordinates (source 0); the others stand in merged, one behind another.
inline std::vector<Record> records(const Lines& lines, const std::vector<Piece>& pieces) {
    const std::vector<u64> own = starts(lines);
    std::vector<Record> result;
    u64 member = 0, merged = 0;
    for (const Piece& piece : pieces) {
        const u64 members = piece.members.size(), coordinates = piece.coordinates.size();
        const bool copied = members > 1;
        const u64 first = copied ? merged : own[piece.members[0]];
        result.push_back({u32(member), u32(members), u32(copied), u32(first), u32(coordinates)});
        member += members;
        if (copied) merged += coordinates;
    }
    return result;
}

// Members, marks, listing and merged coordinates, alike in both kinds of rooms. That they suffice follows from the
// refusals; a model that has these wrong is told so.
template <class Rooms>
void write_pieces(const Lines& lines, const std::vector<Piece>& pieces, Rooms& rooms) {
    u64 member = 0, merged = 0;
    for (const Piece& piece : pieces) {
        for (u64 i = 0; i < piece.members.size(); ++i, ++member) {
            rooms.members.at(member) = piece.members[i];
            rooms.marks.at(member) = piece.marks[i];
            rooms.listing.at(member) = piece.listing[i];
        }
        if (piece.members.size() == 1) continue;
        for (const Coordinate& at : piece.coordinates)
            for (u64 place = 0; place < stride(lines.type); ++place) rooms.merged.at(merged++) = at[place];
    }
}

// [7] At least three coordinates, the first and the last of which agree bit for bit.
inline bool is_a_loop(const Coordinates& chain) {
    return chain.size() >= 3 && same_bits(chain.front(), chain.back());
}

// [7] Six numbers a chain.
inline void write_table(const std::vector<Record>& records, const std::vector<Piece>& chains, std::vector<u32>& table) {
    u64 at = 0;
    for (u64 k = 0; k < chains.size(); ++k) {
        for (u32 value : records[k]) table[at++] = value;
        table[at++] = is_a_loop(chains[k].coordinates);
    }
}

inline std::vector<Box> boxes_of(const std::vector<Piece>& chains) {
    std::vector<Box> result;
    for (const Piece& chain : chains) result.push_back(box_of(chain.coordinates));
    return result;
}

// The chains, lines that pass through behind them, by position. The workspace is zero over 192n.
inline i64 write_chains(const Lines& lines, std::vector<Piece> chains, ChainRooms& rooms) {
    for (const Piece& passing : lone_lines(lines, true)) chains.push_back(passing);
    write_table(records(lines, chains), chains, rooms.table);
    write_pieces(lines, chains, rooms);
    write(all_levels(boxes_of(chains)), rooms.boxes);
    clear(rooms.workspace, 192 * lines.counts.size());
    return static_cast<i64>(chains.size());
}

// ---- The calls

inline Ladder building_tests(const Lines& lines, const Settings& settings, const ChainRooms& rooms) {
    const Ladder room = {
        {7, [&] { return a_room_is_short(lines, rooms) || rooms.spare.size() < lines.coordinates.size(); }}};
    return line_tests(lines) + limit_tests(settings) + origin_tests(settings) + room;
}

inline i64 build(const Lines& lines, const Settings& settings, ChainRooms& rooms) {
    if (int number = refusal(building_tests(lines, settings, rooms))) return -number;
    clear(rooms.spare, lines.coordinates.size());
    return write_chains(lines, round_two(round_one(lines, settings), settings), rooms);
}

// [9] No tolerance and no origin, so no 17.
inline i64 first(const Lines& lines, const Settings& settings, PieceRooms& rooms) {
    const Ladder room = {{7, [&] { return a_room_is_short(lines, rooms); }}};
    if (int number = refusal(line_tests(lines) + limit_tests(settings) + room)) return -number;
    const std::vector<Piece> pieces = round_one(lines, settings);
    u64 at = 0;
    for (const Record& record : records(lines, pieces))
        for (u32 value : record) rooms.pieces[at++] = value;
    write_pieces(lines, pieces, rooms);
    clear(rooms.workspace, 192 * lines.counts.size());
    return static_cast<i64>(pieces.size());
}

}  // namespace model
