// A suite: a name and a function that puts one case, made from its random source and its index. An exhaustive suite
// has a number of cases; the others have as many as are asked for.
#pragma once

#include "../harness/pairing_calls.h"
#include "laws.h"

namespace suites {

struct Suite {
    const char* name;
    void (*put)(Random& random, u64 index);
    u64 cases = 0;   // how many there are, or 0 where there is no end of them
    u64 weight = 1;  // the suite's share of all calls
};

// The digits of an index, least first: how an exhaustive suite reads its choices.
class Digits {
public:
    explicit Digits(u64 index) : rest_(index) {}
    u64 below(u64 n) {
        const u64 digit = rest_ % n;
        rest_ /= n;
        return digit;
    }

private:
    u64 rest_;
};

// Word number `which` over so many letters, of all words, the shorter ones first.
inline std::vector<u64> word(u64 which, u64 letters) {
    u64 length = 0;
    for (u64 words = 1; which >= words; words *= letters, ++length) which -= words;
    Digits digits(which);
    std::vector<u64> result;
    for (u64 i = 0; i < length; ++i) result.push_back(digits.below(letters));
    return result;
}

// [9] Building as one call equals the first followed by the second.
inline void put_in_two_calls(Random& random, const Lines& lines, const Settings& settings, const ChainRooms& before,
                             const ChainRooms& built, i64 chains) {
    PieceRooms pieces = piece_rooms(random, lines);
    const i64 k = put_first(lines, settings, pieces);
    ChainRooms rooms = before;
    const i64 finished = put_finish(lines, pieces, static_cast<u64>(k), settings, rooms);
    must_agree("[9]: two calls are not the one", finished == chains && same_chains(rooms, built));
}

inline void put_window_over(Random& random, const Lines& lines, const ChainRooms& built, u64 k) {
    const auto bound = [&] { return random.of({0.0, -0.0, 0.25, 0.5, 1.0, 2.0, 3.0, -1.0, 7.0, infinity, -infinity}); };
    Box window = {bound(), bound(), bound(), bound()};
    if (!random.one_in(8)) window = upright(window);
    std::vector<u32> found = dirty<u32>(random, k + more(random));
    const i64 answer = put_window(built.boxes, k, window, found);
    if (answer < 0) return;
    found.resize(u64(answer));
    must_agree("[8]: the window is not the plain test", found == chains_in(lines, built, k, window));
}

// Writes the chains and reads them back.
inline void put_as_wkb(Random& random, const Lines& lines, const ChainRooms& built, u64 k) {
    const std::vector<u32> table(built.table.begin(), built.table.begin() + i64(6 * k));
    const Chains chains = {lines.type, lines.coordinates, built.merged, table};
    const u64 bytes = static_cast<u64>(bytes_needed(chains, k)), numbers = (bytes - 9 * k) / 8;
    std::vector<u8> run = dirty<u8>(random, bytes + more(random));
    std::vector<u64> lengths = dirty<u64>(random, k + more(random));
    if (random.one_in(30)) shorten(run);
    if (random.one_in(30)) shorten(lengths);
    const u8 order = static_cast<u8>(random.below(random.one_in(20) ? 256 : 2));
    const i64 written = put_write(chains, k + (random.one_in(30) ? 1 : 0), order, run, lengths);
    put_chain(chains, random.one_in(10) ? random.bits() : random.below(k + 2));
    if (written < 0) return;
    run.resize(bytes);
    lengths.resize(k);
    WkbRooms rooms = {dirty<u64>(random, numbers + more(random)), dirty<u32>(random, k + more(random)),
                      dirty<u32>(random, 1 + more(random))};
    put_read(run, lengths, rooms);
    rooms.coordinates.resize(numbers);
    must_agree("[3]: what was written is not read again", rooms.coordinates == numbers_of(lines, built, k));
}

// Builds, in one call and in two, and puts to every other call what was built.
inline void put_network(Random& random, const Lines& lines, const Settings& settings) {
    const ChainRooms before = chain_rooms(random, lines);
    ChainRooms built = before;
    const i64 answer = put_build(lines, settings, built);
    if (answer < 0) return;
    const u64 k = static_cast<u64>(answer);
    const Settings same = by_limit(settings);
    put_in_two_calls(random, lines, same, before, built, answer);
    const i64 verdict = put_check({lines, same, built.table, k, built.listing, built.merged}, workspace(random, lines));
    must_agree("[12]: what is built in one call is not accepted", verdict == 0);
    for (u64 chain = 0; chain < k; ++chain)
        must_agree("[6]: lines do not lie as drawn", lies_as_drawn(lines, built, chain));
    put_window_over(random, lines, built, k);
    put_as_wkb(random, lines, built, k);
}

}  // namespace suites
