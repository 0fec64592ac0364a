// Vast: slices of more numbers than 32 bits count, mapped without memory of their own and read as zeros. Their answers
// are told by hand. Where the system does not map so much the cases are left out.
#pragma once

#include "suite.h"

namespace suites {

class Vast {
public:
    explicit Vast(u64 bytes) : bytes_(bytes) {
        const int how = MAP_PRIVATE | MAP_ANONYMOUS | MAP_NORESERVE;
        void* all = mmap(nullptr, bytes, PROT_READ | PROT_WRITE, how, -1, 0);
        address_ = all == MAP_FAILED ? nullptr : static_cast<u8*>(all);
    }
    ~Vast() {
        if (address_ != nullptr) munmap(address_, bytes_);
    }
    Vast(const Vast&) = delete;

    bool is_mapped() const { return address_ != nullptr; }
    u8* bytes() const { return address_; }
    const double* doubles() const { return reinterpret_cast<const double*>(address_); }

private:
    u8* address_;
    u64 bytes_;
};

// 5: the counts add up to the length, and to more coordinates than a call takes. By 32 bits the second sum is 0.
inline void build_vast(Random& random, const std::vector<u32>& counts) {
    const u64 numbers = 2 * u64(sum(counts));
    const Vast coordinates(8 * numbers);
    if (!coordinates.is_mapped()) return;
    Lines lines;
    lines.counts = counts;
    lines.groups.assign(counts.size(), 0);
    lines.kinds.assign(counts.size(), 0);
    const ChainRooms rooms = chain_rooms(random, lines);
    Comparison call("build", -5);
    const LentLines in(call, lines);
    const LentChains out(call, rooms, rooms);
    const LentDoubles spare(call, "spare", rooms.spare);
    call.ends(lovasuku_build(2, coordinates.doubles(), numbers, SLICE(in.counts), SLICE(in.groups), SLICE(in.kinds),
                             CELLS(Settings()), 0, 0, CHAINS(out), SLICE(spare), SLICE(out.workspace)));
}

// The chain question and the writer over 2^32 - 1 coordinates.
inline void ask_vast(Random& random) {
    const u64 numbers = 2 * u64(0xffffffff);
    const Vast coordinates(8 * numbers);
    if (!coordinates.is_mapped()) return;
    const std::vector<u32> table = {0, 1, 0, 0, 0xffffffff, 0, 0, 1, 0, 1, 0xfffffffe, 0, 0, 1, 0, 1, 0xffffffff, 0};
    const auto ask = [&](u32 type, u64 length, u64 k, i64 answer) {
        Comparison call("chain", answer);
        const Lent<u32> lent(call, "table", table);
        call.ends(lovasuku_chain(type, coordinates.doubles(), length, nullptr, 0, SLICE(lent), k));
    };
    ask(2, numbers, 0, 0);
    ask(2, numbers - 1, 0, -10);
    ask(1002, numbers, 0, -10);
    ask(2, numbers, 1, 0);
    ask(2, numbers, 2, -10);

    const std::vector<u8> run = dirty<u8>(random, 64);
    const std::vector<u64> lengths = dirty<u64>(random, 2);
    Comparison call("write_wkb", -14);
    const Lent<u32> lent(call, "table", table);
    const Lent<u8> run_room(call, "run", run);
    const Lent<u64> lengths_room(call, "lengths", lengths);
    call.ends(lovasuku_write_wkb(2, coordinates.doubles(), numbers, nullptr, 0, SLICE(lent), 2, 1, SLICE(run_room),
                                 SLICE(lengths_room)));
}

// The reader over a record of 2^29 coordinates with another behind it.
inline void read_vast(Random& random) {
    const u64 length = 9 + (u64(16) << 29);
    const Vast run(length + 9);
    if (!run.is_mapped()) return;
    const u8 first[] = {1, 2, 0, 0, 0, 0, 0, 0, 0x20};
    std::memcpy(run.bytes(), first, 9);
    const auto read = [&](u64 bytes, const std::vector<u64>& lengths, i64 answer) {
        const WkbRooms rooms = {dirty<u64>(random, 4), dirty<u32>(random, 4), dirty<u32>(random, 1)};
        Comparison call("read_wkb", answer);
        const Lent<u64> lent(call, "lengths", lengths);
        const LentDoubles coordinates(call, "coordinates", rooms.coordinates);
        const Lent<u32> counts(call, "counts", rooms.counts), type(call, "wkb_type", rooms.wkb_type);
        call.ends(lovasuku_read_wkb(run.bytes(), bytes, SLICE(lent), SLICE(coordinates), SLICE(counts), SLICE(type)));
    };
    const auto second = [&](std::array<u8, 9> record, i64 answer) {
        std::memcpy(run.bytes() + length, record.data(), 9);
        read(length + 9, {length, 9}, answer);
    };
    read(length, {length}, -14);
    read(length, {length - 1}, -13);
    read(length - 1, {length - 1}, -13);
    read(9, {9}, -13);
    second({2, 0, 0, 0, 2, 0, 0, 0, 0}, -11);
    second({0, 0, 0, 3, 0xeb, 0, 0, 0, 0}, -12);
    second({0, 0, 0, 3, 0xea, 0, 0, 0, 0}, -25);
    second({0, 0, 0, 0, 2, 0, 0, 0, 1}, -13);
    second({0, 0, 0, 0, 2, 0, 0, 0, 0}, -14);
}

inline void vast_slices(Random& random, u64 index) {
    switch (index) {
        case 0: build_vast(random, {0xffffffff}); break;
        case 1: build_vast(random, {0x80000000, 0x80000000}); break;
        case 2: ask_vast(random); break;
        default: read_vast(random);
    }
}

}  // namespace suites
