// Records: runs of WKB, sound and damaged, and tables of any sort for the chain question and the writer.
#pragma once

#include "suite.h"

namespace suites {

// ---- Runs

struct Run {
    std::vector<u8> bytes;
    std::vector<u64> lengths;
};

// A record of any byte order, with one thing in 25 of each sort wrong.
inline void add_record(Random& random, Run& run, u32 first_type) {
    const u64 before = run.bytes.size(), count = random.below(4);
    const u8 order = u8(random.below(2));
    u32 type = first_type;
    if (random.one_in(25))
        type = random.of({2u, 1002u, 2002u, 3002u, 1003u, 0u, 0x80000002u, 0x20000002u, u32(random.below(4000))});
    u64 told = count;
    if (random.one_in(25)) told = random.of<u64>({count + 1, 0xffffffff, count + 0x20000000, random.below(16) << 28});
    run.bytes.push_back(random.one_in(25) ? u8(random.bits()) : order);
    put(run.bytes, order, type, 4);
    put(run.bytes, order, told, 4);
    const u64 width = stride(type) == 0 ? 2 : stride(type);
    for (u64 i = 0; i < count * width; ++i) put(run.bytes, order, any_bits(random), 8);
    if (random.one_in(25)) run.bytes.push_back(u8(random.bits()));
    if (random.one_in(25)) run.bytes.resize(before + random.below(run.bytes.size() - before + 1));
    run.lengths.push_back(run.bytes.size() - before);
}

// Lengths that add up otherwise, or past 2^64.
inline void damage_lengths(Random& random, std::vector<u64>& lengths) {
    if (lengths.empty()) return;
    u64& one = random.of(lengths);
    u64& other = random.of(lengths);
    switch (random.below(6)) {
        case 0: ++one; break;
        case 1: --one; break;
        case 2: lengths.push_back(0); break;
        case 3: one += u64(1) << 63, lengths.push_back(u64(1) << 63); break;
        case 4: lengths.insert(lengths.end(), {~u64(0), 1}); break;
        default: if (one > 3) one -= 3, other += 3;
    }
}

// [3] Writing what was read in one order gives back each record that was in that order.
inline void put_back(Random& random, const Run& run, const WkbRooms& read) {
    std::vector<u32> table;
    u32 first = 0;
    for (u32 i = 0; i < run.lengths.size(); ++i) {
        table.insert(table.end(), {i, 1, 0, first, read.counts[i], 0});
        first += read.counts[i];
    }
    const u8 order = u8(random.below(2));
    std::vector<u8> bytes = dirty<u8>(random, run.bytes.size());
    std::vector<u64> lengths = dirty<u64>(random, run.lengths.size());
    put_write({read.wkb_type[0], read.coordinates, {}, table}, lengths.size(), order, bytes, lengths);
    must_agree("[3]: lengths do not come back", lengths == run.lengths);
    u64 at = 0;
    for (u64 length : lengths) {
        const bool same = std::memcmp(&bytes[at], &run.bytes[at], length) == 0;
        must_agree("[3]: a record does not come back", same || run.bytes[at] != order);
        at += length;
    }
}

inline void runs(Random& random, u64) {
    Run run;
    const u32 type = random.of(types);
    const u64 n = random.below(5);
    for (u64 i = 0; i < n; ++i) add_record(random, run, type);
    const u64 numbers = run.bytes.size() < 9 * n ? 0 : (run.bytes.size() - 9 * n) / 8;
    if (random.one_in(10)) damage_lengths(random, run.lengths);
    WkbRooms rooms = {dirty<u64>(random, numbers + more(random)), dirty<u32>(random, n + more(random)),
                      dirty<u32>(random, 1 + more(random))};
    if (random.one_in(10)) one_short(rooms.coordinates, numbers);
    if (random.one_in(10)) one_short(rooms.counts, n);
    if (random.one_in(10)) rooms.wkb_type.clear();
    if (put_read(run.bytes, run.lengths, rooms) >= 0) put_back(random, run, rooms);
}

// ---- Tables

// A record that names a part of its slice, or here and there what is not there.
inline void add_table_record(Random& random, std::vector<u32>& table, u64 first_size, u64 second_size) {
    const u32 source = u32(random.below(random.one_in(20) ? 4 : 2));
    const u64 size = source == 1 ? second_size : first_size;
    u64 first = random.below(size + 1), count = random.below(size - first + 1) + (random.one_in(12) ? 1 : 0);
    if (random.one_in(25)) first = random.bits();
    if (random.one_in(25)) count = random.bits();
    if (random.one_in(40)) first = 0xffffffff, count = random.between(1, 3);
    const u32 unread = u32(random.bits());
    table.insert(table.end(), {unread, unread, source, u32(first), u32(count), unread});
}

// Chain numbers of which six times as many wrap.
inline u64 any_chain_number(Random& random, u64 records) {
    if (!random.one_in(10)) return random.below(records + 1);
    return random.of<u64>({random.bits(), u64(1) << 63, 0x2aaaaaaaaaaaaaaa, 0x2aaaaaaaaaaaaaab, 0x5555555555555556,
                           ~u64(0), ~u64(0) - 1, 0xaaaaaaaaaaaaaaab});
}

inline void tables(Random& random, u64) {
    const u32 type = random.one_in(12) ? u32(random.bits()) : random.of(types);
    const u64 width = stride(type) == 0 ? 2 : stride(type);
    const std::vector<u64> coordinates = dirty<u64>(random, random.below(8) * width + more(random));
    const std::vector<u64> merged = dirty<u64>(random, random.below(8) * width + more(random));
    const u64 n = random.below(5);
    std::vector<u32> table;
    for (u64 i = 0; i < n; ++i) add_table_record(random, table, coordinates.size() / width, merged.size() / width);
    if (random.one_in(8)) table.push_back(1);
    if (random.one_in(10)) shorten(table);
    const Chains chains = {type, coordinates, merged, table};
    const u64 k = any_chain_number(random, n);
    put_chain(chains, k);

    const u128 needed = 6 * u128(k) <= table.size() ? bytes_needed(chains, k) : 0;
    const u64 bytes = needed > 4000 ? random.below(200) : u64(needed);
    std::vector<u8> run = dirty<u8>(random, bytes + more(random));
    std::vector<u64> lengths = dirty<u64>(random, std::min<u64>(k, 10) + more(random));
    if (random.one_in(12)) one_short(run, bytes);
    if (random.one_in(12)) one_short(lengths, std::min<u64>(k, 10));
    const i64 written = put_write(chains, k, u8(random.below(random.one_in(15) ? 256 : 2)), run, lengths);
    if (written < 0) return;
    run.resize(u64(written));
    lengths.resize(k);
    WkbRooms rooms = {dirty<u64>(random, (run.size() - 9 * k) / 8), dirty<u32>(random, k), dirty<u32>(random, 1)};
    put_read(run, lengths, rooms);
}

}  // namespace suites
