// Checking ([12]): are chains made elsewhere acceptable? Whether directions can be chosen is asked in two ways: by a
// trial of every choice, which is the request's own sentence, and, for chains of any length, step by step over all
// places that a choice can have reached. Where both are asked they must agree.
#pragma once

#include <set>

#include "chaining.h"
#include "wkb.h"

namespace model {

// Chains of these lines, with the part of the listing that each has.
struct Delivery {
    const Lines& lines;
    const Settings& settings;
    const std::vector<u32>& table;
    u64 k;
    const std::vector<u32>& listing;
    const std::vector<u64>& merged;

    Chains chains() const { return {lines.type, lines.coordinates, merged, table}; }
    std::vector<u32> listed(const ChainRecord& record) const {
        const auto begin = listing.begin() + record.first_member;
        return std::vector<u32>(begin, begin + record.member_count);
    }
};

// ---- 23

// Refused by 10, reaching outside the listing or naming a line not below n.
inline bool is_a_bad_record(const Delivery& delivery, u64 chain) {
    if (is_no_chain(delivery.chains(), chain)) return true;
    const ChainRecord record = delivery.chains().record(chain);
    if (record.first_member + record.member_count > delivery.listing.size()) return true;
    for (u32 position : delivery.listed(record))
        if (position >= delivery.lines.counts.size()) return true;
    return false;
}

inline bool any_is_a_bad_record(const Delivery& delivery) {
    if (u128(6) * delivery.k > delivery.table.size()) return true;
    for (u64 chain = 0; chain < delivery.k; ++chain)
        if (is_a_bad_record(delivery, chain)) return true;
    return false;
}

// ---- 24: directions

// Where a line is left and the next is entered: the same exact key or, with a tolerance, the same cell.
inline bool meet(const Coordinate& left, const Coordinate& entered, const Settings& settings) {
    if (same_bits(left, entered)) return true;
    if (!(settings.tolerance > 0)) return false;
    const Key a = cell_key(0, left, settings), b = cell_key(0, entered, settings);
    return a.x == b.x && a.y == b.y;
}

// Direction 0 is the line's own, 1 the other.
inline Coordinates travelled(Coordinates line, u32 direction) {
    if (direction == 1) std::reverse(line.begin(), line.end());
    return line;
}

// One choice: consecutive lines meet, and laid end to end they are the chain.
inline bool fits(const std::vector<Coordinates>& lines, const Coordinates& chain, const Settings& settings,
                 u64 choice) {
    Coordinates laid, before;
    for (u64 i = 0; i < lines.size(); ++i) {
        const Coordinates line = travelled(lines[i], (choice >> i) & 1);
        if (i > 0 && !meet(before.back(), line.front(), settings)) return false;
        lay(laid, line);
        before = line;
    }
    return std::equal(laid.begin(), laid.end(), chain.begin(), chain.end(), equal_places);
}

inline bool fits_by_trial(const std::vector<Coordinates>& lines, const Coordinates& chain, const Settings& settings) {
    for (u64 choice = 0; choice < u64(1) << lines.size(); ++choice)
        if (fits(lines, chain, settings, choice)) return true;
    return false;
}

// How far along the chain a line reaches that is laid behind its first coordinates, or none where it departs from it.
inline std::optional<u64> reach(const Coordinates& chain, u64 at, const Coordinates& line) {
    for (const Coordinate& next : line) {
        if (at > 0 && equal_places(chain[at - 1], next)) continue;
        if (at == chain.size() || !equal_places(chain[at], next)) return std::nullopt;
        ++at;
    }
    return at;
}

// All pairs of a direction of the last line and a place in the chain that the lines so far can have reached.
inline bool fits_by_steps(const std::vector<Coordinates>& lines, const Coordinates& chain, const Settings& settings) {
    using States = std::set<std::pair<u32, u64>>;
    States states;
    for (u32 direction : {0u, 1u})
        if (auto at = reach(chain, 0, travelled(lines[0], direction))) states.insert({direction, *at});
    for (u64 i = 1; i < lines.size(); ++i) {
        States next;
        for (const auto& [before, at] : states)
            for (u32 direction : {0u, 1u}) {
                const Coordinate& left = before == 1 ? lines[i - 1].front() : lines[i - 1].back();
                const Coordinates line = travelled(lines[i], direction);
                if (!meet(left, line.front(), settings)) continue;
                if (auto further = reach(chain, at, line)) next.insert({direction, *further});
            }
        states = next;
    }
    return states.count({0, chain.size()}) + states.count({1, chain.size()}) > 0;
}

inline bool directions_exist(const std::vector<Coordinates>& lines, const Coordinates& chain,
                             const Settings& settings) {
    const bool result = fits_by_steps(lines, chain, settings);
    if (lines.size() <= 7 && fits_by_trial(lines, chain, settings) != result)
        throw Contradiction("[12]: a trial of every choice says otherwise");
    return result;
}

// ---- 24: all else

inline bool is_not_each_line_once(const Delivery& delivery) {
    std::vector<u64> times(delivery.lines.counts.size());
    for (u64 chain = 0; chain < delivery.k; ++chain)
        for (u32 position : delivery.listed(delivery.chains().record(chain))) ++times[position];
    return std::any_of(times.begin(), times.end(), [](u64 often) { return often != 1; });
}

inline bool may_be_joined(const Lines& lines, const std::vector<u32>& positions) {
    for (u32 position : positions)
        if (passes_through(lines, position) || lines.groups[position] != lines.groups[positions[0]]) return false;
    return true;
}

// No lines have no coordinates. A lone line is untouched, bit for bit, [13] with its extras.
inline bool is_acceptable(const Delivery& delivery, const ChainRecord& record) {
    const Chains chains = delivery.chains();
    const Coordinates chain =
        part(chains.source(record), stride(chains.type), record.first_coordinate, record.coordinate_count);
    const std::vector<u32> positions = delivery.listed(record);
    if (positions.empty()) return chain.empty();
    std::vector<Coordinates> lines;
    for (u32 position : positions) lines.push_back(line(delivery.lines, position));
    if (lines.size() == 1) return chain == lines[0];
    return may_be_joined(delivery.lines, positions) && directions_exist(lines, chain, delivery.settings);
}

inline bool any_is_not_acceptable(const Delivery& delivery) {
    for (u64 chain = 0; chain < delivery.k; ++chain)
        if (!is_acceptable(delivery, delivery.chains().record(chain))) return true;
    return false;
}

// ---- The call

// 23 is judged over all records before any 24.
inline i64 check(const Delivery& delivery, std::vector<u64>& workspace) {
    const u64 room = 192 * delivery.lines.counts.size();
    const Ladder ladder = line_tests(delivery.lines) + origin_tests(delivery.settings) +
                          Ladder{
                              {7, [&] { return workspace.size() < room; }},
                              {23, [&] { return any_is_a_bad_record(delivery); }},
                              {24, [&] { return is_not_each_line_once(delivery); }},
                              {24, [&] { return any_is_not_acceptable(delivery); }},
                          };
    if (int number = refusal(ladder)) return -number;
    clear(workspace, room);
    return 0;
}

}  // namespace model
