// Made: dirty rooms, and lines and settings by chance.
#pragma once

#include "../model/building.h"
#include "random.h"

namespace harness {

constexpr double infinity = INFINITY;
constexpr double not_a_number = NAN;
constexpr u32 types[] = {2, 1002, 2002, 3002};

// ---- Rooms

// So many numbers that are not what a call leaves.
template <class T>
std::vector<T> dirty(Random& random, u64 length) {
    std::vector<T> result(length);
    u64 value = random.bits();
    for (T& each : result) each = static_cast<T>((value += 0x9E3779B97F4A7C15u) >> 7);
    return result;
}

// What a room is longer by than asked for.
inline u64 more(Random& random) { return random.coin() ? 0 : random.below(4); }

inline ChainRooms chain_rooms(Random& random, const Lines& lines) {
    const u64 n = lines.counts.size(), numbers = lines.coordinates.size();
    ChainRooms rooms;
    rooms.table = dirty<u32>(random, 6 * n + more(random));
    rooms.members = dirty<u32>(random, n + more(random));
    rooms.marks = dirty<u8>(random, n + more(random));
    rooms.listing = dirty<u32>(random, n + more(random));
    rooms.merged = dirty<u64>(random, numbers + more(random));
    rooms.boxes = dirty<u64>(random, 8 * n + 64 + more(random));
    rooms.spare = dirty<u64>(random, numbers + more(random));
    rooms.workspace = dirty<u64>(random, 192 * n + more(random));
    return rooms;
}

inline PieceRooms piece_rooms(Random& random, const Lines& lines) {
    const u64 n = lines.counts.size(), numbers = lines.coordinates.size();
    PieceRooms rooms;
    rooms.pieces = dirty<u32>(random, 5 * n + more(random));
    rooms.members = dirty<u32>(random, n + more(random));
    rooms.marks = dirty<u8>(random, n + more(random));
    rooms.listing = dirty<u32>(random, n + more(random));
    rooms.merged = dirty<u64>(random, numbers + more(random));
    rooms.workspace = dirty<u64>(random, 192 * n + more(random));
    return rooms;
}

inline std::vector<u64> workspace(Random& random, const Lines& lines) {
    return dirty<u64>(random, 192 * lines.counts.size() + more(random));
}

template <class T>
void shorten(std::vector<T>& list) {
    if (!list.empty()) list.pop_back();
}

// A room of one number less than is asked for.
template <class T>
void one_short(std::vector<T>& room, u64 asked) {
    room.resize(asked == 0 ? 0 : asked - 1);
}

// A window whose bounds are in order.
inline Box upright(Box window) {
    if (window.least_x > window.greatest_x) std::swap(window.least_x, window.greatest_x);
    if (window.least_y > window.greatest_y) std::swap(window.least_y, window.greatest_y);
    return window;
}

// ---- Lines

struct Place {
    double x, y;
};
using Places = std::vector<Place>;

// Any double: extras may be NaN of any bits.
inline u64 any_bits(Random& random) {
    switch (random.below(4)) {
        case 0: return random.of<u64>({0x7ff8000000000000, 0x7ff0000000000001, 0xfff8000000000123, 0x7fffffffffffffff});
        case 1: return bits(random.of({infinity, -0.0, 0.0, 1.0}));
        default: return random.bits();
    }
}

inline void add_coordinate(Random& random, u32 type, Place place, std::vector<u64>& slice) {
    slice.push_back(bits(place.x));
    slice.push_back(bits(place.y));
    for (u64 extra = 2; extra < stride(type); ++extra) slice.push_back(any_bits(random));
}

inline void add_line(Random& random, Lines& lines, const Places& places, u32 group = 7, u8 kind = 0) {
    lines.counts.push_back(static_cast<u32>(places.size()));
    lines.groups.push_back(group);
    lines.kinds.push_back(kind);
    for (const Place& place : places) add_coordinate(random, lines.type, place, lines.coordinates);
}

// A line of a network, with its coordinates as they are.
inline void copy_line(const Lines& from, u64 position, Lines& to) {
    const u64 width = stride(from.type), first = starts(from)[position] * width;
    to.counts.push_back(from.counts[position]);
    to.groups.push_back(from.groups[position]);
    to.kinds.push_back(from.kinds[position]);
    to.coordinates.insert(to.coordinates.end(), from.coordinates.begin() + first,
                          from.coordinates.begin() + first + from.counts[position] * width);
}

inline u32 any_type(Random& random) { return random.below(3) == 0 ? random.of(types) : 2; }

// Numbers that meet one another: zeros of both signs, subnormal ones, differences that overflow or vanish when squared.
inline const std::vector<std::vector<double>>& number_sets() {
    static const std::vector<std::vector<double>> sets = {
        {0.0, -0.0, 1.0},
        {0, 1, 2},
        {0, 1, -1},
        {0, 3, 4, 5, -3, -4, -5, 1, 2},
        {0, -0.0, 0.25, 1.25, 1.75, -0.25, 3.5, 2.0},
        {0, -0.0, 5e-324, -5e-324, 0x1p-537, 0x1p-538, -0x1p-537, 0x1p-1022, 0x1p-536},
        {0, 1, -1, 0.5, -0.5, 1e-17, -1e-17, 0x1p53, 0x1p63, -0x1p63, 0x1p64},
        {0, 1.7976931348623157e308, -1.7976931348623157e308, 8.98846567431158e307, 0x1p511, 0x1p512, -0x1p512, 1},
    };
    return sets;
}

// Few lines of few coordinates over few places.
inline Lines few_places(Random& random, u64 most_lines = 7, u64 most_coordinates = 4) {
    Lines lines;
    lines.type = any_type(random);
    const std::vector<double>& all = random.of(number_sets());
    const u64 xs = random.between(2, all.size()), ys = random.below(3) == 0 ? 1 : xs;
    const bool groups = random.coin(), kinds = random.coin();
    for (u64 n = random.below(most_lines + 1); n > 0; --n) {
        const u64 count = random.one_in(8) ? random.below(2) : random.between(2, most_coordinates);
        Places places(count);
        for (Place& place : places) place = {all[random.below(xs)], all[random.below(ys)]};
        const u32 group = groups && random.one_in(3) ? random.of({0u, 1u, 0x7fffffffu, 0x80000000u, 0xffffffffu}) : 7;
        add_line(random, lines, places, group, kinds && random.one_in(6));
    }
    return lines;
}

// Many ends at few nodes that lie near one another.
inline Lines star(Random& random, u64 most_lines) {
    Lines lines;
    lines.type = any_type(random);
    const Places hubs = {{0, 0}, {0.25, 0.25}, {random.coin() ? -0.0 : 5.0, 0}};
    const u64 hub_count = random.between(1, 3);
    const bool huge = random.one_in(8);
    Places spokes(random.between(1, 12));
    for (Place& spoke : spokes) {
        spoke = {double(random.below(7)) - 3, double(random.below(7)) - 3};
        if (random.one_in(3)) spoke = {double(i64(random.bits())) * 0x1p-60, double(i64(random.bits())) * 0x1p-60};
        if (huge && random.one_in(3)) spoke = {spoke.x < 0 ? -1.7e308 : 1.7e308, spoke.y * 1e-300};
    }
    for (u64 n = random.between(3, most_lines); n > 0; --n) {
        const Place hub = hubs[random.below(hub_count)], spoke = random.of(spokes);
        Places places = {hub, {hub.x + spoke.x, hub.y + spoke.y}};
        if (random.one_in(4)) places.insert(places.begin(), hub);
        if (random.one_in(4)) places.push_back({hub.x + spoke.x, hub.y + spoke.y + double(random.below(2))});
        if (random.one_in(6)) places.push_back(hub);
        if (random.coin()) std::reverse(places.begin(), places.end());
        add_line(random, lines, places, random.one_in(20) ? 4 : 3, random.one_in(30));
    }
    return lines;
}

// Up to three hundred lines over a pool of places, in four groups of both districts.
inline Lines town(Random& random) {
    Lines lines;
    lines.type = any_type(random);
    const u64 n = random.between(8, random.one_in(4) ? 300 : 80), style = random.below(4);
    const u64 columns = random.between(1, 20), rows = random.between(1, 20), groups = random.between(1, 4);
    Places pool(random.between(1, 2 * n));
    for (Place& place : pool) {
        place = {double(random.below(columns)), double(random.below(rows))};
        if (style == 1) place = {place.x * 0.25 - 2, place.y * 0.25 - 2};
        if (style == 2) place = {double(i64(random.bits())) * 0x1p-40, double(i64(random.bits())) * 0x1p-40};
        if (style == 3) place = {-place.x, random.coin() ? -place.y : 0x1p63 * (double(random.below(3)) - 1)};
    }
    const bool in_order = random.coin();
    for (u64 i = 0; i < n; ++i) {
        Places places(random.one_in(15) ? random.below(2) : random.between(2, 4));
        for (u64 k = 0; k < places.size(); ++k)
            places[k] = in_order && !random.one_in(8) ? pool[(i + k) % pool.size()] : random.of(pool);
        add_line(random, lines, places, u32(random.below(groups)) * 0x55555555u, random.one_in(25));
    }
    return lines;
}

// ---- Settings

inline Settings any_settings(Random& random) {
    Settings settings;
    if (!random.one_in(4))
        settings.tolerance = random.of({0.0, -0.0, -1.0, not_a_number, 1.0, 1.0, 0.5, 0.25, 2.0, 3.0, 0.1, infinity,
                                        -infinity, 5e-324, 1e-300, 1e308, 0x1p-1022});
    static const double origins[] = {-0.0, 0.25, 0.5, 1.0, -1.0, 1e308, -1.7976931348623157e308, 0x1p53, 5e-324};
    if (random.one_in(3)) settings.origin_x = random.of(origins);
    if (random.one_in(3)) settings.origin_y = random.of(origins);
    settings.switch_on = random.below(3) > 0;
    settings.limit = random.of({-1.0, -0.5, 0.0, -0.0, 0.5, 1.0, -0.70710678118654757, -0.9999999999999999, 0.6});
    if (settings.switch_on == 0 && random.coin()) settings.limit = random.coin() ? not_a_number : 7;
    settings.by_offset = random.one_in(5);
    settings.offset = static_cast<u32>(random.one_in(4) ? random.of({0, 1000}) : random.below(1001));
    if (settings.switch_on == 0 && random.coin()) settings.offset = static_cast<u32>(random.bits());
    return settings;
}

// The same settings with the offset's limit in its place.
inline Settings by_limit(Settings settings) {
    if (settings.by_offset) settings.limit = limit_of(settings);
    settings.by_offset = false;
    return settings;
}

}  // namespace harness
