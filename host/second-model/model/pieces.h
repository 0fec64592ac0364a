// Pieces ([9]): what 19 says of lent pieces, clause by clause, and finishing them by round two as lent.
#pragma once

#include <set>

#include "building.h"

namespace model {

struct PieceRecord {
    u64 first_member, member_count, source, first_coordinate, coordinate_count;
    u64 members_end() const { return first_member + member_count; }
    u64 coordinates_end() const { return first_coordinate + coordinate_count; }
};

// k pieces that are lent, of these lines.
struct LentPieces {
    const Lines& lines;
    const PieceRooms& rooms;
    u64 k;

    PieceRecord record(u64 piece) const {
        const u32* at = &rooms.pieces[5 * piece];
        return {at[0], at[1], at[2], at[3], at[4]};
    }
    const std::vector<u64>& source(const PieceRecord& record) const {
        return record.source == 0 ? lines.coordinates : rooms.merged;
    }
    Coordinates coordinates(const PieceRecord& record) const {
        return part(source(record), stride(lines.type), record.first_coordinate, record.coordinate_count);
    }
};

// The part of members, marks or listing that a record names.
template <class T>
std::vector<T> named(const std::vector<T>& list, const PieceRecord& record) {
    return std::vector<T>(list.begin() + record.first_member, list.begin() + record.members_end());
}

// ---- The clauses of 19

inline bool records_leave_the_table(const LentPieces& lent) { return u128(5) * lent.k > lent.rooms.pieces.size(); }

inline bool has_no_line_or_coordinate(const LentPieces&, const PieceRecord& record) {
    return record.member_count == 0 || record.coordinate_count == 0;
}

// [13] Numbers are counted, 2 plus the extras for each coordinate.
inline bool leaves_its_slices(const LentPieces& lent, const PieceRecord& record) {
    const PieceRooms& rooms = lent.rooms;
    const u64 end = record.members_end();
    if (end > rooms.members.size() || end > rooms.marks.size() || end > rooms.listing.size()) return true;
    if (record.source > 1) return true;
    return record.coordinates_end() * stride(lent.lines.type) > lent.source(record).size();
}

inline bool names_what_is_no_line(const LentPieces& lent, const PieceRecord& record) {
    for (const auto* list : {&lent.rooms.members, &lent.rooms.listing})
        for (u32 position : named(*list, record))
            if (position >= lent.lines.counts.size()) return true;
    return false;
}

inline bool lists_other_lines_than_members(const LentPieces& lent, const PieceRecord& record) {
    const std::vector<u32> members = named(lent.rooms.members, record), listing = named(lent.rooms.listing, record);
    return std::set<u32>(members.begin(), members.end()) != std::set<u32>(listing.begin(), listing.end());
}

inline bool mixes_groups(const LentPieces& lent, const PieceRecord& record) {
    const std::vector<u32>& groups = lent.lines.groups;
    const std::vector<u32> members = named(lent.rooms.members, record);
    for (u32 member : members)
        if (groups[member] != groups[members[0]]) return true;
    return false;
}

inline bool has_what_is_no_place(const LentPieces& lent, const PieceRecord& record) {
    for (const Coordinate& at : lent.coordinates(record))
        if (!is_a_place(at)) return true;
    return false;
}

// One line: its own place in source 0, not equal bits elsewhere. More: in source 1.
inline bool is_not_where_it_belongs(const LentPieces& lent, const PieceRecord& record) {
    if (record.member_count > 1) return record.source != 1;
    const u32 only = lent.rooms.members[record.first_member];
    const u64 own = starts(lent.lines)[only];
    return record.source != 0 || record.first_coordinate != own || record.coordinate_count != lent.lines.counts[only];
}

inline bool has_a_mark_above_one(const LentPieces& lent, const PieceRecord& record) {
    return any_above_one(named(lent.rooms.marks, record));
}

// The members, or the listing, piece by piece, are not the lines that don't pass through, each once.
inline bool is_not_each_line_once(const LentPieces& lent, const std::vector<u32>& list) {
    std::vector<u64> times(lent.lines.counts.size());
    for (u64 piece = 0; piece < lent.k; ++piece)
        for (u32 position : named(list, lent.record(piece))) ++times[position];
    for (u64 i = 0; i < times.size(); ++i)
        if (times[i] != (passes_through(lent.lines, i) ? 0 : 1)) return true;
    return false;
}

inline bool has_too_many_coordinates(const LentPieces& lent) {
    u128 all = 0;
    for (u64 piece = 0; piece < lent.k; ++piece) all += lent.record(piece).coordinate_count;
    return all > coordinate_count(lent.lines);
}

using Clause = bool (*)(const LentPieces&, const PieceRecord&);

// A test of one clause over all records.
inline Test of_any_record(const LentPieces& lent, Clause breaks) {
    return {19, [&lent, breaks] {
                for (u64 piece = 0; piece < lent.k; ++piece)
                    if (breaks(lent, lent.record(piece))) return true;
                return false;
            }};
}

inline Ladder piece_tests(const LentPieces& lent) {
    return {
        {19, [&] { return records_leave_the_table(lent); }},
        of_any_record(lent, has_no_line_or_coordinate),
        of_any_record(lent, leaves_its_slices),
        of_any_record(lent, names_what_is_no_line),
        of_any_record(lent, lists_other_lines_than_members),
        of_any_record(lent, mixes_groups),
        of_any_record(lent, has_what_is_no_place),
        of_any_record(lent, is_not_where_it_belongs),
        of_any_record(lent, has_a_mark_above_one),
        {19, [&] { return is_not_each_line_once(lent, lent.rooms.members); }},
        {19, [&] { return is_not_each_line_once(lent, lent.rooms.listing); }},
        {19, [&] { return has_too_many_coordinates(lent); }},
    };
}

// ---- The call

// The pieces as they are lent.
inline std::vector<Piece> pieces_of(const LentPieces& lent) {
    std::vector<Piece> result;
    for (u64 piece = 0; piece < lent.k; ++piece) {
        const PieceRecord record = lent.record(piece);
        const std::vector<u32> members = named(lent.rooms.members, record);
        result.push_back({lent.lines.groups[members[0]], members, named(lent.rooms.marks, record),
                          named(lent.rooms.listing, record), lent.coordinates(record)});
    }
    return result;
}

// 19 right after 17 and before 7. No spare is needed.
inline i64 finish(const Lines& lines, const PieceRooms& pieces, u64 k, const Settings& settings, ChainRooms& rooms) {
    const LentPieces lent = {lines, pieces, k};
    const Ladder room = {{7, [&] { return a_room_is_short(lines, rooms); }}};
    const Ladder ladder =
        line_tests(lines) + limit_tests(settings) + origin_tests(settings) + piece_tests(lent) + room;
    if (int number = refusal(ladder)) return -number;
    return write_chains(lines, round_two(pieces_of(lent), settings), rooms);
}

}  // namespace model
