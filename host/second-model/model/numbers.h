// Numbers: the bits of doubles, what is finite, the cell of a number, the limit of an offset.
//
// In this folder a number in brackets, [5], is a request of the list of change requests; what has none is of the
// rules of the port. Coordinates are held as their 64 bits and become doubles where the rules compute with them.
#pragma once

#include <cmath>
#include <cstdint>
#include <cstring>
#include <stdexcept>

namespace model {

using u8 = std::uint8_t;
using u32 = std::uint32_t;
using u64 = std::uint64_t;
using i64 = std::int64_t;
// Sums and products of lengths are judged as whole numbers: none may wrap.
__extension__ typedef unsigned __int128 u128;

inline double number(u64 bits) {
    double value;
    std::memcpy(&value, &bits, sizeof value);
    return value;
}

inline u64 bits(double value) {
    u64 result;
    std::memcpy(&result, &value, sizeof result);
    return result;
}

inline bool is_finite(double value) { return value - value == 0.0; }

// [13] The numbers of a coordinate of a type: x, y and the extras. 0 for what is none of the four types.
inline u64 stride(u32 type) {
    switch (type) {
        case 2: return 2;
        case 1002: return 3;
        case 2002: return 3;
        case 3002: return 4;
        default: return 0;
    }
}

// [5] The floor of (coordinate - origin) / tolerance as a whole number of 64 bits: at or above 2^63 the largest,
// below -2^63 the smallest, NaN 0.
inline i64 cell(double coordinate, double origin, double tolerance) {
    const double difference = coordinate - origin;
    const double quotient = difference / tolerance;
    if (std::isnan(quotient)) return 0;
    const double column = std::floor(quotient);
    if (column >= 0x1p63) return INT64_MAX;
    if (column < -0x1p63) return INT64_MIN;
    return static_cast<i64>(column);
}

// [11] Whether M * M * (1,000,000 + g * g) is at most 1,000,000 * 2^106.
inline bool within_offset(u64 m, u64 g) {
    const u128 greatest = static_cast<u128>(1000000) << 106;
    return static_cast<u128>(m) * m <= greatest / (1000000 + g * g);
}

// [11] Minus M / 2^53 for the largest such M. It is at most 2^53, since g is at least 0.
inline double offset_limit(u32 g) {
    u64 within = 0, beyond = (u64(1) << 53) + 1;
    while (beyond - within > 1) {
        const u64 middle = within + (beyond - within) / 2;
        (within_offset(middle, g) ? within : beyond) = middle;
    }
    return -std::ldexp(static_cast<double>(within), -53);
}

// The model has found that it contradicts a law that the requests state.
struct Contradiction : std::logic_error {
    using std::logic_error::logic_error;
};

}  // namespace model
