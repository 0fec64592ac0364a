// Networks: building and all that follows it, over every small network and over others by chance.
#pragma once

#include "suite.h"

namespace suites {

// ---- Every network of up to four lines of two coordinates over four places

inline const std::vector<Places>& four_places() {
    static const std::vector<Places> all = {
        {{0, 0}, {-0.0, 0}, {1, 0}, {0, 1}},
        {{0, 0}, {1, 0}, {2, 0}, {1, 1}},
        {{0.25, 0}, {1.25, 0}, {1.75, 0}, {-0.25, 0}},
    };
    return all;
}

inline Settings small_settings(u64 which) {
    struct Choice {
        double tolerance, origin_x;
        u8 switch_on;
        double limit;
    };
    static const Choice all[] = {{0, 0, 0, 0}, {0, 0, 1, -1},  {0, 0, 1, 0},  {0, 0, 1, 1},        {1, 0, 0, 0},
                                 {1, 0, 1, 0}, {1, 0.5, 1, 1}, {2, 0, 1, -1}, {infinity, 0, 1, 1}};
    Settings settings;
    settings.tolerance = all[which].tolerance;
    settings.origin_x = all[which].origin_x;
    settings.switch_on = all[which].switch_on;
    settings.limit = all[which].limit;
    return settings;
}

// 1 + 16 + 256 + 4,096 + 65,536 networks; a letter is a line.
constexpr u64 small_networks = 69905;

inline void every_small_network(Random& random, u64 index) {
    Digits digits(index);
    const Settings settings = small_settings(digits.below(9));
    const Places& places = four_places()[digits.below(3)];
    Lines lines;
    for (u64 letter : word(digits.below(small_networks), 16))
        add_line(random, lines, {places[letter % 4], places[letter / 4]});
    put_network(random, lines, settings);
}

// ---- Every network of three lines of none to three coordinates over three places

// 1 + 3 + 9 + 27 lines; a letter is a place.
constexpr u64 short_lines = 40;

inline Places short_line(const Places& places, u64 which) {
    Places line;
    for (u64 letter : word(which, 3)) line.push_back(places[letter]);
    return line;
}

inline void every_three_short_lines(Random& random, u64 index) {
    static const std::vector<Places> all = {{{0, 0}, {-0.0, 0}, {1, 0}}, {{0, 0}, {1, 0}, {1, 1}}};
    Digits digits(index);
    const Settings settings = small_settings(2 * digits.below(5));
    const Places& places = all[digits.below(2)];
    Lines lines;
    for (int i = 0; i < 3; ++i) add_line(random, lines, short_line(places, digits.below(short_lines)));
    put_network(random, lines, settings);
}

// ---- By chance

inline void few_places_by_chance(Random& random, u64) {
    const Lines lines = few_places(random);
    put_network(random, lines, any_settings(random));
}

inline void stars(Random& random, u64) {
    const Lines lines = star(random, random.one_in(100) ? 300 : random.one_in(6) ? 70 : 12);
    put_network(random, lines, any_settings(random));
}

inline void towns(Random& random, u64) {
    const Lines lines = town(random);
    Settings settings = any_settings(random);
    if (random.coin()) settings.tolerance = random.of({1.0, 0.5, 2.0, 3.0, 10.0, 1e-5, 1e5, 1e300});
    put_network(random, lines, settings);
}

// Longer lines, whose boxes have the bits of the earlier zero.
inline void long_lines(Random& random, u64) {
    static const double values[] = {0.0, -0.0, 1, -1, 5e-324, -5e-324, 1.7976931348623157e308, -1.7976931348623157e308};
    Lines lines;
    lines.type = random.of(types);
    const u64 first = random.below(8), several = random.between(1, 8);
    const auto value = [&] { return values[(first + random.below(several)) % 8]; };
    for (u64 n = random.between(1, 6); n > 0; --n) {
        Places places(random.below(45));
        for (Place& place : places) place = {value(), value()};
        add_line(random, lines, places, 0, static_cast<u8>(random.below(2)));
    }
    Settings settings = any_settings(random);
    settings.tolerance = double(random.below(2));
    put_network(random, lines, settings);
}

// ---- Two districts ([10])

// A district's chains, named by the ranks of its own lines, with content and boxes.
inline std::vector<std::vector<u64>> chains_of_district(const Lines& lines, const ChainRooms& built, u64 k,
                                                        int district) {
    std::vector<u64> rank;
    u64 next = 0;
    for (u64 i = 0; i < lines.counts.size(); ++i) rank.push_back(is_of_district(lines, i, district) ? next++ : 0);
    std::vector<std::vector<u64>> result;
    for (u64 chain = 0; chain < k; ++chain) {
        const u32* record = &built.table[6 * chain];
        if (!is_of_district(lines, built.members[record[0]], district)) continue;
        std::vector<u64> content = {record[1], record[2], record[4], record[5]};
        for (u64 i = record[0]; i < u64(record[0]) + record[1]; ++i)
            content.insert(content.end(), {rank[built.members[i]], rank[built.listing[i]], built.marks[i]});
        for (const Coordinate& at : chain_of(lines, built, chain)) content.insert(content.end(), at.begin(), at.end());
        for (u64 i = 4 * chain; i < 4 * chain + 4; ++i) content.push_back(built.boxes[i]);
        result.push_back(content);
    }
    return result;
}

// The lines of one with those of the other mixed in.
inline Lines mixed(Random& random, const Lines& own, const Lines& other) {
    Lines result;
    result.type = own.type;
    u64 i = 0, j = 0;
    while (i < own.counts.size() || j < other.counts.size()) {
        const bool take_own = j == other.counts.size() || (i < own.counts.size() && random.coin());
        take_own ? copy_line(own, i++, result) : copy_line(other, j++, result);
    }
    return result;
}

inline void districts(Random& random, u64) {
    const int district = static_cast<int>(random.below(2));
    const auto in_district = [&](int which, u32 type) {
        Lines lines = few_places(random, 5);
        while (lines.type != type && type != 0) lines = few_places(random, 5);
        for (u32& group : lines.groups) group = (which == 0 ? 0u : 0x80000000u) + random.of({0u, 0x7fffffffu});
        return lines;
    };
    const Lines own = in_district(district, 0);
    const Settings settings = any_settings(random);
    std::vector<std::vector<std::vector<u64>>> answers;
    for (int time = 0; time < 2; ++time) {
        const Lines lines = mixed(random, own, in_district(1 - district, own.type));
        ChainRooms rooms = chain_rooms(random, lines);
        const i64 k = put_build(lines, settings, rooms);
        if (k < 0) return;
        answers.push_back(chains_of_district(lines, rooms, static_cast<u64>(k), district));
    }
    must_agree("[10]: one district alters the other's chains", answers[0] == answers[1]);
}

}  // namespace suites
