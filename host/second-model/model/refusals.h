// Refusals: a call's tests in the order in which they are judged. The first that applies gives the number.
#pragma once

#include <functional>

#include "lines.h"

namespace model {

struct Test {
    int number;
    std::function<bool()> applies;
};
using Ladder = std::vector<Test>;

inline Ladder operator+(Ladder first, const Ladder& then) {
    first.insert(first.end(), then.begin(), then.end());
    return first;
}

// The number of the first test that applies, or 0. A test may rely on those before it.
inline int refusal(const Ladder& ladder) {
    for (const Test& test : ladder)
        if (test.applies()) return test.number;
    return 0;
}

inline bool any_above_one(const std::vector<u8>& marks) {
    for (u8 mark : marks)
        if (mark > 1) return true;
    return false;
}

inline u128 sum(const std::vector<u32>& counts) {
    u128 result = 0;
    for (u32 count : counts) result += count;
    return result;
}

// [10] Groups below 2^31 are the first district's, the rest the second's.
inline bool is_of_district(const Lines& lines, u64 position, int district) {
    return (lines.groups[position] >= 0x80000000u) == (district == 1);
}

inline u64 district_lines(const Lines& lines, int district) {
    u64 result = 0;
    for (u64 i = 0; i < lines.counts.size(); ++i) result += is_of_district(lines, i, district);
    return result;
}

inline u64 district_coordinates(const Lines& lines, int district) {
    u64 result = 0;
    for (u64 i = 0; i < lines.counts.size(); ++i)
        if (is_of_district(lines, i, district)) result += lines.counts[i];
    return result;
}

// [2] An x or a y of any line is NaN or infinite. [13] Extras are not looked at.
inline bool any_no_place(const Lines& lines) {
    const u64 width = stride(lines.type);
    for (u64 at = 0; at < lines.coordinates.size(); at += width)
        if (!is_finite(number(lines.coordinates[at])) || !is_finite(number(lines.coordinates[at + 1]))) return true;
    return false;
}

// 12 first ([13]), 1 to 5, then 20 and 21 ([10]), then 15 ([2]).
inline Ladder line_tests(const Lines& lines) {
    return {
        {12, [&] { return stride(lines.type) == 0; }},
        {1, [&] { return lines.counts.size() > 4096; }},
        {2, [&] { return lines.groups.size() != lines.counts.size() || lines.kinds.size() != lines.counts.size(); }},
        {3, [&] { return any_above_one(lines.kinds); }},
        {4, [&] { return sum(lines.counts) * stride(lines.type) != lines.coordinates.size(); }},
        {5, [&] { return sum(lines.counts) > 65536; }},
        {20, [&] { return district_lines(lines, 0) > 2048 || district_lines(lines, 1) > 2048; }},
        {21, [&] { return district_coordinates(lines, 0) > 32768 || district_coordinates(lines, 1) > 32768; }},
        {15, [&] { return any_no_place(lines); }},
    };
}

inline bool is_a_limit(double limit) { return limit >= -1 && limit <= 1; }

// With the switch at 0 neither limit nor offset is looked at. [11] 22 is in place of the limit's part of 6.
inline Ladder limit_tests(const Settings& settings) {
    return {
        {6, [&] { return settings.switch_on > 1; }},
        {22, [&] { return settings.switch_on == 1 && settings.by_offset && settings.offset > 1000; }},
        {6, [&] { return settings.switch_on == 1 && !settings.by_offset && !is_a_limit(settings.limit); }},
    };
}

// [5] Looked at in every call, whatever the tolerance is.
inline Ladder origin_tests(const Settings& settings) {
    return {{17, [&] { return !is_finite(settings.origin_x) || !is_finite(settings.origin_y); }}};
}

// [6] The listing's room joins 7, [7] the table has six numbers a chain, [8] the boxes' room joins 7.
inline bool a_room_is_short(const Lines& lines, const ChainRooms& rooms) {
    const u64 n = lines.counts.size(), numbers = lines.coordinates.size();
    return rooms.table.size() < 6 * n || rooms.members.size() < n || rooms.marks.size() < n ||
           rooms.listing.size() < n || rooms.merged.size() < numbers || rooms.boxes.size() < 8 * n + 64 ||
           rooms.workspace.size() < 192 * n;
}

// [9] Pieces keep five numbers.
inline bool a_room_is_short(const Lines& lines, const PieceRooms& rooms) {
    const u64 n = lines.counts.size(), numbers = lines.coordinates.size();
    return rooms.pieces.size() < 5 * n || rooms.members.size() < n || rooms.marks.size() < n ||
           rooms.listing.size() < n || rooms.merged.size() < numbers || rooms.workspace.size() < 192 * n;
}

}  // namespace model
