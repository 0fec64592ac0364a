// Sizes: calls at the greatest numbers of lines and coordinates, and one beyond, sound and with something wrong.
#pragma once

#include "refused.h"

namespace suites {

// n lines of so many coordinates, of one district or of both in turn, and the first line with more or fewer.
struct Size {
    u64 n, coordinates;
    bool both_districts;
    int first_has_more;
    double tolerance;
};

inline const std::vector<Size>& sizes() {
    static const std::vector<Size> all = {
        {4096, 2, true, 0, 0},    {4096, 2, true, 0, 4},   {4097, 2, true, 0, 0},   {2048, 2, false, 0, 4},
        {2049, 2, false, 0, 0},   {4096, 0, true, 0, 0},   {2049, 0, false, 0, 0},  {4096, 16, true, 0, 4},
        {4096, 16, true, 1, 0},   {4095, 16, true, 16, 0}, {4095, 16, true, 17, 0}, {1, 32768, false, 0, 1},
        {1, 32769, false, 0, 0},  {2, 32768, true, 0, 1},  {2, 32768, true, 1, 0},  {2, 32768, true, -1, 0},
        {1, 65536, false, 0, 0},  {1, 65537, false, 0, 0}, {4097, 16, true, 0, 0},  {3000, 3, true, 0, 2},
    };
    return all;
}

inline Lines lines_of(Random& random, const Size& size) {
    const u32 district = random.of({0u, 0x80000000u});
    Lines lines;
    for (u64 i = 0; i < size.n; ++i) {
        Places places(i == 0 ? u64(i64(size.coordinates) + size.first_has_more) : size.coordinates);
        for (u64 k = 0; k < places.size(); ++k) places[k] = {double(i + k), double(k * i % 7)};
        add_line(random, lines, places, size.both_districts && i % 2 == 1 ? district ^ 0x80000000u : district);
    }
    return lines;
}

// The four calls that lend lines, without pieces and without chains.
inline void put_lines(Random& random, const Lines& lines, const Settings& settings) {
    ChainRooms rooms = chain_rooms(random, lines);
    PieceRooms pieces = piece_rooms(random, lines);
    const std::vector<u32> none;
    put_build(lines, settings, rooms);
    put_first(lines, settings, pieces);
    put_finish(lines, PieceRooms(), 0, settings, rooms);
    put_check({lines, settings, none, 0, none, {}}, workspace(random, lines));
}

// A case of each size by itself, and with one thing wrong, or two, of which the first that applies decides.
inline void greatest_sizes(Random& random, u64 index) {
    const Size& size = sizes()[index];
    Settings settings;
    settings.tolerance = size.tolerance;
    settings.switch_on = size.tolerance > 0;
    Lines lines = lines_of(random, size);
    put_network(random, lines, settings);
    if (!lines.coordinates.empty()) lines.coordinates.back() = bits(no_place(random));
    put_lines(random, lines, settings);
    break_lines(random, lines);
    put_lines(random, lines, settings);
}

// Counts whose sum passes 2^32.
inline void wrapping_counts(Random& random, u64 index) {
    static const std::vector<std::vector<u32>> all = {{0x80000000u, 0x80000000u, 2},
                                                      {0xffffffffu, 3},
                                                      {0xffffffffu, 0xffffffffu, 4},
                                                      {0x40000000u, 0x40000000u, 0x80000000u, 2}};
    Lines lines;
    add_line(random, lines, {{0, 0}, {1, 1}});
    lines.counts = all[index];
    lines.groups.assign(lines.counts.size(), 0);
    lines.kinds.assign(lines.counts.size(), 0);
    put_lines(random, lines, Settings());
}

}  // namespace suites
