// Laws: what the requests and the header say of answers beside one another. They judge the model itself; where one is
// broken a contradiction is told.
#pragma once

#include "../harness/made.h"
#include "../model/checking.h"
#include "../model/pieces.h"

namespace suites {

using namespace harness;

inline void must_agree(const char* law, bool agree) {
    if (!agree) throw Contradiction(law);
}

inline bool same_chains(const ChainRooms& a, const ChainRooms& b) {
    return a.table == b.table && a.members == b.members && a.marks == b.marks && a.listing == b.listing &&
           a.merged == b.merged && a.boxes == b.boxes;
}

// The coordinates of a chain that was built.
inline Coordinates chain_of(const Lines& lines, const ChainRooms& built, u64 k) {
    const u32* record = &built.table[6 * k];
    return part(record[2] == 0 ? lines.coordinates : built.merged, stride(lines.type), record[3], record[4]);
}

// [6] The lines of a chain of several, in the order of the listing, each backwards where its mark is 1, laid end to
// end without repeats of x and y, are the chain's coordinates by ==.
inline bool lies_as_drawn(const Lines& lines, const ChainRooms& built, u64 k) {
    const u64 first = built.table[6 * k], count = built.table[6 * k + 1];
    if (count == 1) return chain_of(lines, built, k) == line(lines, built.listing[first]);
    Coordinates laid;
    for (u64 i = first; i < first + count; ++i) {
        u64 member = first;
        while (built.members[member] != built.listing[i]) ++member;
        lay(laid, travelled(line(lines, built.listing[i]), built.marks[member]));
    }
    const Coordinates chain = chain_of(lines, built, k);
    return std::equal(laid.begin(), laid.end(), chain.begin(), chain.end(), equal_places);
}

// [8] The plain test of every chain's coordinates' extent.
inline std::vector<u32> chains_in(const Lines& lines, const ChainRooms& built, u64 chains, const Box& window) {
    std::vector<u32> result;
    for (u32 k = 0; k < chains; ++k)
        if (meets(box_of(chain_of(lines, built, k)), window)) result.push_back(k);
    return result;
}

// [3] What reading gives of chains that were written: their coordinates, one chain behind another, bit for bit.
inline std::vector<u64> numbers_of(const Lines& lines, const ChainRooms& built, u64 chains) {
    std::vector<u64> result;
    for (u64 k = 0; k < chains; ++k)
        for (const Coordinate& at : chain_of(lines, built, k))
            result.insert(result.end(), at.begin(), at.begin() + i64(stride(lines.type)));
    return result;
}

}  // namespace suites
