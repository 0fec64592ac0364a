// Windows: the window question over boxes of any sort, sound or not, and every box of one chain with every window.
#pragma once

#include "suite.h"

namespace suites {

// One chain's box and a window, each bound one of seven, along x or along y.
constexpr u64 every_window_cases = 7 * 7 * 7 * 7 * 7 * 7 * 2;

inline void every_window(Random& random, u64 index) {
    static const double values[] = {-infinity, -1, -0.0, 0, 1, infinity, not_a_number};
    Digits digits(index);
    const auto value = [&] { return values[digits.below(7)]; };
    std::vector<u64> boxes(72, bits(0.0));
    for (u64 i = 0; i < 4; ++i) boxes[i] = bits(value());
    const double least = value(), greatest = value();
    std::vector<u32> found = dirty<u32>(random, 1);
    put_window(boxes, 1, digits.below(2) == 0 ? Box{least, -1, greatest, 1} : Box{-1, least, 1, greatest}, found);
}

// A number of a lent box: mostly a bound that leaves the box open, here and there any number or any NaN.
inline u64 box_number(Random& random, bool least, u64 oddity) {
    static const double values[] = {0, -0.0, 1, 2, -1, -2, 0.5, infinity, -infinity, 5e-324, 1e308};
    if (random.below(20) < oddity) return random.one_in(4) ? any_bits(random) : bits(random.of(values));
    const double whole = double(random.below(3)) - (least ? 1 : 0);
    return bits(random.coin() ? whole : least ? -infinity : infinity);
}

inline Box any_window(Random& random) {
    static const double values[] = {0, -0.0, 1, 2, -1, -2, 0.5, infinity, -infinity, 5e-324, 1e308, not_a_number};
    const u64 several = random.one_in(12) ? 12 : 11;
    const auto value = [&] { return values[random.below(several)]; };
    const Box window = {value(), value(), value(), value()};
    return random.one_in(10) ? window : upright(window);
}

inline void arbitrary_boxes(Random& random, u64) {
    const u64 k = random.below(random.one_in(4) ? (random.one_in(3) ? 600 : 70) : 10);
    const u64 oddity = random.below(6);
    std::vector<u64> boxes(8 * k + 64 + more(random));
    for (u64 i = 0; i < boxes.size(); ++i) boxes[i] = box_number(random, i % 4 < 2, oddity);
    std::vector<u32> found = dirty<u32>(random, k + more(random));
    if (random.one_in(15)) one_short(found, k);
    if (random.one_in(15)) one_short(boxes, 8 * k + 64);
    u64 lent = k;
    if (random.one_in(25)) lent = k + 1;
    if (random.one_in(25))
        lent = random.of<u64>({u64(1) << 61, (u64(1) << 61) - 8, ~u64(0), u64(1) << 63, (u64(1) << 32) + k});
    put_window(boxes, lent, any_window(random), found);
}

// From 2^18 + 1 chains on, 8k + 64 numbers can fall short of all levels: what is not wholly lent is not looked at.
inline void deep_boxes(Random& random, u64 index) {
    const u64 k = (u64(1) << 18) + std::vector<u64>{0, 1, 2, 65537}[index % 4];
    std::vector<u64> boxes(8 * k + 64 + more(random));
    for (u64 i = 0; i < boxes.size(); ++i) boxes[i] = bits(i % 4 < 2 ? -1.0 : 1.0);
    const u64 last = boxes.size() / 4 - 1;
    for (int times = 0; times < 40; ++times) {
        const u64 box = random.coin() ? random.below(2 * k) : k + random.below(k);
        boxes[4 * std::min(box, last) + random.below(4)] = bits(random.of({not_a_number, 5.0, -5.0}));
    }
    std::vector<u32> found = dirty<u32>(random, k);
    put_window(boxes, k, {0, 0, 1, 1}, found);
}

// Levels of every number of boxes up to some hundred, and at the steps of 512.
inline void every_level(Random& random, u64 index) {
    const u64 n = index < 130 ? index : 512 * ((index - 130) / 4 + 1) + (index - 130) % 4 - 2;
    Lines lines;
    for (u64 i = 0; i < std::min<u64>(n, 4096); ++i) {
        Places places(random.below(n > 1000 ? 2 : 4));
        for (Place& place : places) place = {random.sign() * double(random.below(100)), double(random.below(100))};
        add_line(random, lines, places, i % 2 == 0 ? 0 : 0x80000000u, 1);
    }
    ChainRooms rooms = chain_rooms(random, lines);
    const i64 k = put_build(lines, Settings(), rooms);
    for (int times = 0; times < 4; ++times) {
        const double x = double(random.below(120)) - 20, y = double(random.below(120)) - 20;
        std::vector<u32> found = dirty<u32>(random, u64(k));
        put_window(rooms.boxes, u64(k), {x, y, x + double(random.below(60)), y + double(random.below(60))}, found);
    }
}

}  // namespace suites
