// Lines: what a call lends, its settings and its rooms, and the coordinates of a line.
#pragma once

#include <array>
#include <vector>

#include "numbers.h"

namespace model {

// [13] The bits of x, y and the extras. Extras that the type does not have are 0.
using Coordinate = std::array<u64, 4>;
using Coordinates = std::vector<Coordinate>;

struct Lines {
    u32 type = 2;
    std::vector<u64> coordinates;
    std::vector<u32> counts, groups;
    std::vector<u8> kinds;
};

struct Settings {
    double tolerance = 0, origin_x = 0, origin_y = 0;
    u8 switch_on = 0;
    double limit = 0;
    bool by_offset = false;  // [11] the offset stands in the limit's place
    u32 offset = 0;
};

// The rooms of building and of finishing; spare is building's alone.
struct ChainRooms {
    std::vector<u32> table, members;
    std::vector<u8> marks;
    std::vector<u32> listing;
    std::vector<u64> merged, boxes, spare, workspace;
};

// [9] The rooms of the first call, which the second call is lent.
struct PieceRooms {
    std::vector<u32> pieces, members;
    std::vector<u8> marks;
    std::vector<u32> listing;
    std::vector<u64> merged, workspace;
};

inline double x(const Coordinate& at) { return number(at[0]); }
inline double y(const Coordinate& at) { return number(at[1]); }

// Equal by ==, in x and y alone.
inline bool equal_places(const Coordinate& a, const Coordinate& b) { return x(a) == x(b) && y(a) == y(b); }

// Equal bit for bit, in x and y alone.
inline bool same_bits(const Coordinate& a, const Coordinate& b) { return a[0] == b[0] && a[1] == b[1]; }

inline bool is_a_place(const Coordinate& at) { return is_finite(x(at)) && is_finite(y(at)); }

// The coordinates of a part of a slice; first and count are in coordinates.
inline Coordinates part(const std::vector<u64>& slice, u64 width, u64 first, u64 count) {
    Coordinates result(count, Coordinate{});
    for (u64 i = 0; i < count; ++i)
        for (u64 place = 0; place < width; ++place) result[i][place] = slice[(first + i) * width + place];
    return result;
}

// Where each line's coordinates begin, in coordinates.
inline std::vector<u64> starts(const Lines& lines) {
    std::vector<u64> result;
    u64 at = 0;
    for (u32 count : lines.counts) {
        result.push_back(at);
        at += count;
    }
    return result;
}

inline Coordinates line(const Lines& lines, u64 position) {
    return part(lines.coordinates, stride(lines.type), starts(lines)[position], lines.counts[position]);
}

inline u64 coordinate_count(const Lines& lines) { return lines.coordinates.size() / stride(lines.type); }

// Kind 1 passes through unjoined, and so does a line of 0 or 1 coordinates.
inline bool passes_through(const Lines& lines, u64 position) {
    return lines.kinds[position] == 1 || lines.counts[position] < 2;
}

template <class T>
void clear(std::vector<T>& room, u64 length) {
    for (u64 i = 0; i < length; ++i) room[i] = 0;
}

}  // namespace model
