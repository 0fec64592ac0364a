// Boxes ([8]): those of chains, of pairs level by level up to one for all, and the window question over lent boxes.
#pragma once

#include "refusals.h"

namespace model {

// Least x, least y, greatest x, greatest y.
struct Box {
    double least_x, least_y, greatest_x, greatest_y;
};

// What a chain without coordinates has.
inline Box empty_box() { return {INFINITY, INFINITY, -INFINITY, -INFINITY}; }

// The box around two. Of equal values the bits of the earlier one stay.
inline Box around(const Box& earlier, const Box& later) {
    Box result = earlier;
    if (later.least_x < earlier.least_x) result.least_x = later.least_x;
    if (later.least_y < earlier.least_y) result.least_y = later.least_y;
    if (later.greatest_x > earlier.greatest_x) result.greatest_x = later.greatest_x;
    if (later.greatest_y > earlier.greatest_y) result.greatest_y = later.greatest_y;
    return result;
}

inline Box box_of(const Coordinates& coordinates) {
    Box result = empty_box();
    for (const Coordinate& at : coordinates) result = around(result, {x(at), y(at), x(at), y(at)});
    return result;
}

// The next level: every two, an odd last one alone.
inline std::vector<Box> level_above(const std::vector<Box>& level) {
    std::vector<Box> result;
    for (u64 i = 0; i < level.size(); i += 2)
        result.push_back(i + 1 < level.size() ? around(level[i], level[i + 1]) : level[i]);
    return result;
}

// The chains' own boxes, then level by level up to one for all; none for no chains.
inline std::vector<Box> all_levels(std::vector<Box> level) {
    std::vector<Box> result = level;
    while (level.size() > 1) {
        level = level_above(level);
        result.insert(result.end(), level.begin(), level.end());
    }
    return result;
}

inline void write(const std::vector<Box>& boxes, std::vector<u64>& room) {
    u64 at = 0;
    for (const Box& box : boxes)
        for (double value : {box.least_x, box.least_y, box.greatest_x, box.greatest_y}) room[at++] = bits(value);
}

// ---- The window question

inline bool has_a_nan(const Box& box) {
    return std::isnan(box.least_x) || std::isnan(box.least_y) || std::isnan(box.greatest_x) ||
           std::isnan(box.greatest_y);
}

inline bool is_inverted(const Box& box) {
    return box.least_x > box.greatest_x || box.least_y > box.greatest_y;
}

// Overlap or touch.
inline bool meets(const Box& box, const Box& window) {
    if (has_a_nan(box) || is_inverted(box)) return false;
    return box.least_x <= window.greatest_x && window.least_x <= box.greatest_x && box.least_y <= window.greatest_y &&
           window.least_y <= box.greatest_y;
}

// A box that is not wholly lent is not looked at.
inline bool meets_or_is_not_lent(const std::vector<u64>& boxes, u64 index, const Box& window) {
    if (4 * (index + 1) > boxes.size()) return true;
    const u64* box = &boxes[4 * index];
    return meets({number(box[0]), number(box[1]), number(box[2]), number(box[3])}, window);
}

// The chain's own box and all boxes above it meet the window.
inline bool is_listed(const std::vector<u64>& boxes, u64 chains, u64 chain, const Box& window) {
    u64 level_begins = 0, level_size = chains, place = chain;
    while (meets_or_is_not_lent(boxes, level_begins + place, window)) {
        if (level_size == 1) return true;
        level_begins += level_size;
        level_size = (level_size + 1) / 2;
        place /= 2;
    }
    return false;
}

inline i64 window(const std::vector<u64>& boxes, u64 k, const Box& window, std::vector<u32>& found) {
    const int number = refusal({
        {18, [&] { return has_a_nan(window) || is_inverted(window); }},
        {7, [&] { return u128(8) * k + 64 > boxes.size() || k > found.size() || k > u64(1) << 32; }},
    });
    if (number != 0) return -number;
    u64 written = 0;
    for (u64 chain = 0; chain < k; ++chain)
        if (is_listed(boxes, k, chain, window)) found[written++] = static_cast<u32>(chain);
    return static_cast<i64>(written);
}

}  // namespace model
