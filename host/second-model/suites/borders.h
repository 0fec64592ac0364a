// Borders: ends at the borders of cells, and limits at a pair's own measure.
#pragma once

#include "suite.h"

namespace suites {

// A positive double whose exponent lies between two.
inline double by_exponent(Random& random, int least, int greatest) {
    const double mantissa = random.one_in(3) ? 1.0 : 1.0 + double(random.bits() >> 12) * 0x1p-52;
    return std::ldexp(mantissa, least + int(random.below(u64(greatest - least + 1))));
}

// A double a few steps away.
inline double beside(double value, int steps) {
    for (; steps > 0; --steps) value = std::nextafter(value, infinity);
    for (; steps < 0; ++steps) value = std::nextafter(value, -infinity);
    return value;
}

inline double held_finite(double value) {
    return is_finite(value) ? value : value > 0 ? 1.7e308 : -1.7e308;
}

// ---- Cells

struct Grid {
    double tolerance, origin, column;
};

inline Grid any_grid(Random& random) {
    Grid grid{by_exponent(random, -3, 6), 0, std::floor(double(random.below(2000)) - 1000)};
    const u64 style = random.below(6);
    if (style == 0) grid.tolerance = by_exponent(random, -1074, -1000);
    if (style == 1) grid.tolerance = by_exponent(random, 900, 1023);
    if (style == 2) grid.tolerance = by_exponent(random, -60, -40);
    if (!random.one_in(3))
        grid.origin = random.sign() * (style == 1 ? by_exponent(random, 900, 1023) : by_exponent(random, -5, 30));
    if (style == 3 && random.coin()) grid = {infinity, random.sign() * by_exponent(random, 1022, 1023), grid.column};
    if (random.one_in(5)) grid.column *= by_exponent(random, 0, 70);
    return grid;
}

// A number within three steps of a border of the grid's column.
inline double near_a_border(Random& random, const Grid& grid) {
    const double border = held_finite(grid.origin + (grid.column + double(random.below(2))) * grid.tolerance);
    const double value = held_finite(beside(border, int(random.below(7)) - 3));
    return random.one_in(8) ? -value : value;
}

inline void cell_borders(Random& random, u64) {
    const Grid grid = any_grid(random);
    Settings settings;
    settings.tolerance = grid.tolerance;
    settings.origin_x = grid.origin;
    settings.origin_y = random.coin() ? 0 : -grid.origin;
    settings.switch_on = static_cast<u8>(random.below(2));
    settings.limit = 1;
    Lines lines;
    for (u64 n = random.between(2, 4); n > 0; --n) {
        const double far = random.coin() ? near_a_border(random, grid) : double(n) * 7 + 1e6;
        Places places = {{near_a_border(random, grid), 0}, {far, random.coin() ? 0.0 : double(n)}};
        if (random.coin()) std::swap(places[0], places[1]);
        if (random.one_in(4))
            for (Place& place : places) std::swap(place.x, place.y);
        add_line(random, lines, places);
    }
    put_network(random, lines, settings);
}

// ---- Limits

inline double any_step(Random& random, u64 style) {
    switch (style) {
        case 0: return random.sign() * by_exponent(random, -540, -530);
        case 1: return random.sign() * by_exponent(random, 500, 515);
        case 2: return random.sign() * double(random.below(6));
        default: return random.sign() * by_exponent(random, -4, 4);
    }
}

// A junction whose limit is one of its own measures, or a step beside it; or a bend of exactly an offset.
inline void limits_at_measures(Random& random, u64) {
    Lines lines;
    std::vector<Direction> directions;
    const u64 style = random.below(5), n = random.between(3, random.one_in(4) ? 48 : 8);
    const double at = random.coin() ? 0 : by_exponent(random, -2, 20);
    Settings settings;
    settings.switch_on = 1;
    settings.by_offset = random.one_in(5);
    settings.offset = static_cast<u32>(random.below(1001));
    for (u64 i = 0; i < n; ++i) {
        Places places = {{at, 0}, {at + any_step(random, style), any_step(random, style)}};
        if (settings.by_offset && i == 0) places[1] = {at - 1000, 0};
        if (settings.by_offset && i == 1) places[1] = {at + 1000, double(settings.offset)};
        const u32 side = random.coin();
        if (side == 1) std::swap(places[0], places[1]);
        add_line(random, lines, places);
        directions.push_back(direction(piece_of(lines, u32(i)), side));
    }
    const double own = measure(random.of(directions), random.of(directions));
    const double limit = beside(own == own ? own : 0, int(random.below(3)) - 1);
    settings.limit = std::min(1.0, std::max(-1.0, limit));
    put_network(random, lines, settings);
}

}  // namespace suites
