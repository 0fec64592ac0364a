// Deliveries ([12]): chains made elsewhere, woven from lines that meet, with what can be wrong with them.
#pragma once

#include "suite.h"

namespace suites {

// A delivery that is being made.
struct Draft {
    Lines lines;
    Settings settings;
    std::vector<u32> table, listing;
    std::vector<u64> merged;

    void add(u32 source, u64 first, const std::vector<u32>& positions, u64 count) {
        table.insert(table.end(), {u32(listing.size()), u32(positions.size()), source, u32(first), u32(count), 9});
        listing.insert(listing.end(), positions.begin(), positions.end());
    }
    // A chain whose coordinates stand in merged.
    void add(const std::vector<u32>& positions, const Coordinates& chain) {
        const u64 width = stride(lines.type);
        add(1, merged.size() / width, positions, chain.size());
        for (const Coordinate& at : chain) merged.insert(merged.end(), at.begin(), at.begin() + i64(width));
    }
    i64 put(Random& random, u64 k) const {
        return put_check({lines, settings, table, k, listing, merged}, workspace(random, lines));
    }
    u64 chains() const { return table.size() / 6; }
};

// Zeros get another sign here and there, which == does not see.
inline void change_zeros(Random& random, Coordinates& chain) {
    for (Coordinate& at : chain)
        for (u64 place : {0, 1})
            if (number(at[place]) == 0 && random.one_in(3)) at[place] = bits(random.of({0.0, -0.0}));
}

// One thing wrong with a chain or its lines.
inline void damage(Random& random, std::vector<u32>& positions, Coordinates& chain) {
    switch (random.below(7)) {
        case 0: shorten(chain); break;
        case 1: if (!chain.empty()) chain.push_back(chain.back()); break;
        case 2: std::reverse(chain.begin(), chain.end()); break;
        case 3: std::reverse(positions.begin(), positions.end()); break;
        case 4: std::swap(random.of(positions), random.of(positions)); break;
        case 5: if (!chain.empty()) chain.erase(chain.begin() + i64(random.below(chain.size()))); break;
        default: if (!chain.empty()) chain[random.below(chain.size())][random.below(4)] ^= u64(1) << random.below(64);
    }
}

// ---- Chains woven from lines that meet

// A line not yet used that can follow where the last was left; here and there one that cannot.
inline std::optional<std::pair<u32, u32>> follower(Random& random, const Draft& draft, const std::vector<bool>& used,
                                                   u32 first, const Coordinate& left) {
    std::vector<std::pair<u32, u32>> found;
    for (u32 i = 0; i < used.size(); ++i)
        for (u32 side : {0u, 1u}) {
            const Coordinates next = travelled(line(draft.lines, i), side);
            if (used[i] || next.empty()) continue;
            const bool fits = !passes_through(draft.lines, i) && draft.lines.groups[i] == draft.lines.groups[first] &&
                              meet(left, next.front(), draft.settings);
            if (fits || random.one_in(40)) found.push_back({i, side});
        }
    if (found.empty()) return std::nullopt;
    return random.of(found);
}

// Where coordinates equal to the chain's stand among the lines' own, of whichever lines.
inline std::optional<u64> place_in_lines(const Lines& lines, const Coordinates& chain) {
    const u64 all = coordinate_count(lines);
    for (u64 first = 0; first + chain.size() <= all; ++first) {
        const Coordinates here = part(lines.coordinates, stride(lines.type), first, chain.size());
        if (std::equal(here.begin(), here.end(), chain.begin(), equal_places)) return first;
    }
    return std::nullopt;
}

inline void weave_chain(Random& random, Draft& draft, std::vector<bool>& used, u32 first) {
    std::vector<u32> positions = {first};
    const Coordinates alone = line(draft.lines, first);
    Coordinates chain, last = travelled(alone, u32(random.below(2)));
    lay(chain, last);
    used[first] = true;
    while (!passes_through(draft.lines, first) && !random.one_in(5)) {
        const auto next = follower(random, draft, used, first, last.back());
        if (!next) break;
        last = travelled(line(draft.lines, next->first), next->second);
        used[next->first] = true;
        positions.push_back(next->first);
        lay(chain, last);
    }
    if (positions.size() == 1) chain = random.one_in(12) ? turned(alone) : alone;
    if (positions.size() > 1) change_zeros(random, chain);
    if (random.one_in(12)) damage(random, positions, chain);
    const auto place = random.coin() ? place_in_lines(draft.lines, chain) : std::nullopt;
    place ? draft.add(0, *place, positions, chain.size()) : draft.add(positions, chain);
}

// One thing wrong with the tables.
inline void damage_tables(Random& random, Draft& draft, u64& k) {
    const u64 lines = draft.lines.counts.size();
    switch (random.below(5)) {
        case 0: if (!draft.table.empty()) random.of(draft.table) = u32(random.below(8)); break;
        case 1: if (!draft.listing.empty()) random.of(draft.listing) = u32(random.below(lines + 2)); break;
        case 2: shorten(draft.table); break;
        case 3: k = random.of<u64>({k + 1, k == 0 ? 0 : k - 1, random.bits()}); break;
        default: {  // a chain of no lines, with no coordinates or with one
            const u32 first = u32(random.below(draft.listing.size() + 2)), count = random.one_in(4);
            draft.table.insert(draft.table.begin(), {first, 0, 0, 0, count, 5});
            ++k;
        }
    }
}

inline void woven_chains(Random& random, u64) {
    Draft draft;
    draft.lines = few_places(random, 6, 4);
    draft.settings = by_limit(any_settings(random));
    std::vector<bool> used(draft.lines.counts.size());
    std::vector<u32> order;
    for (u32 i = 0; i < used.size(); ++i) order.push_back(i);
    random.shuffle(order);
    for (u32 first : order)
        if (!used[first]) weave_chain(random, draft, used, first);
    u64 k = draft.chains();
    if (random.one_in(6)) damage_tables(random, draft, k);
    draft.put(random, k);
}

// ---- One chain of many lines that may be travelled in many ways

inline Lines swinging_lines(Random& random, u64 n) {
    static const double values[] = {0, -0.0, 1, 0.5, 2, 3};
    Lines lines;
    const u64 several = random.between(2, 6), period = random.below(3), most = random.between(2, 7);
    for (u64 i = 0; i < n; ++i) {
        Places places(random.between(2, most));
        const u64 phase = random.below(6);
        for (u64 k = 0; k < places.size(); ++k)
            places[k] = {values[period > 0 ? (phase + k) % std::min(several, period + 1) : random.below(several)], 0};
        add_line(random, lines, places);
    }
    return lines;
}

// Where neither end of a line meets the last, its first coordinate is moved there.
inline void swinging_chain(Random& random, u64) {
    Draft draft;
    const u64 n = random.one_in(20) ? random.between(10, 200) : random.between(2, 8);
    draft.lines = swinging_lines(random, n);
    draft.settings.tolerance = random.of({0.0, 1.0, 8.0});
    draft.settings.origin_x = random.of({0.0, 0.0, 0.5});
    std::vector<u32> positions;
    Coordinates chain;
    Coordinate left = line(draft.lines, 0).front();
    for (u32 i = 0; i < n; ++i) {
        Coordinates next = line(draft.lines, i);
        const bool front = meet(left, next.front(), draft.settings), back = meet(left, next.back(), draft.settings);
        if (!front && !back && !random.one_in(60)) {
            next.front() = left;
            u64* moved = &draft.lines.coordinates[2 * starts(draft.lines)[i]];
            std::copy(left.begin(), left.begin() + 2, moved);
        }
        if (back && (!front || random.coin())) next = turned(next);
        lay(chain, next);
        left = next.back();
        positions.push_back(i);
    }
    change_zeros(random, chain);
    if (random.one_in(4)) damage(random, positions, chain);
    draft.add(positions, chain);
    draft.put(random, 1);
}

// ---- Every two lines of two or three coordinates, with every chain of up to five

constexpr u64 every_delivery_cases = 36 * 36 * 63 * 3;

inline void every_two_lines(Random& random, u64 index) {
    static const Places places = {{0, 0}, {-0.0, 0}, {1, 0}};
    Digits digits(index);
    Draft draft;
    draft.settings.tolerance = std::array<double, 3>{0, 1, 5}[digits.below(3)];
    for (int i = 0; i < 2; ++i) {
        Places line;
        for (u64 letter : word(4 + digits.below(36), 3)) line.push_back(places[letter]);
        add_line(random, draft.lines, line);
    }
    std::vector<u64> chain;
    for (u64 letter : word(digits.below(63), 2)) add_coordinate(random, 2, places[2 * letter], chain);
    draft.add({0, 1}, part(chain, 2, 0, chain.size() / 2));
    draft.put(random, 1);
}

}  // namespace suites
