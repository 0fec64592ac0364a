// WKB: the chain question, [3] the writer of a table's chains and [1] the reader of records, [13] of all four types.
#pragma once

#include "refusals.h"

namespace model {

// ---- The chain question

// [7] A chain's record has six numbers, of which the last is not looked at.
struct ChainRecord {
    u64 first_member, member_count, source, first_coordinate, coordinate_count;
};

// A table with the two slices that it speaks of.
struct Chains {
    u32 type;
    const std::vector<u64>& coordinates;
    const std::vector<u64>& merged;
    const std::vector<u32>& table;

    ChainRecord record(u64 k) const {
        const u32* at = &table[6 * k];
        return {at[0], at[1], at[2], at[3], at[4]};
    }
    const std::vector<u64>& source(const ChainRecord& record) const {
        return record.source == 0 ? coordinates : merged;
    }
};

// Record k is not wholly in the table, its source is above 1, or it reaches beyond the slice that it names.
inline bool is_no_chain(const Chains& chains, u64 k) {
    if ((u128(k) + 1) * 6 > chains.table.size()) return true;
    const ChainRecord record = chains.record(k);
    if (record.source > 1) return true;
    const u128 end = u128(record.first_coordinate + record.coordinate_count) * stride(chains.type);
    return end > chains.source(record).size();
}

// One of the records 0 to k - 1 is no chain.
inline bool any_is_no_chain(const Chains& chains, u64 k) {
    if (u128(k) * 6 > chains.table.size()) return true;
    for (u64 i = 0; i < k; ++i)
        if (is_no_chain(chains, i)) return true;
    return false;
}

inline i64 chain(const Chains& chains, u64 k) {
    return -refusal({
        {12, [&] { return stride(chains.type) == 0; }},
        {10, [&] { return is_no_chain(chains, k); }},
    });
}

// ---- WKB out

// Where a byte of a number of some bytes stands: order 0 has the greatest byte first, order 1 the least.
inline u64 shift(u8 order, u64 byte, u64 bytes) { return 8 * (order == 1 ? byte : bytes - 1 - byte); }

inline void put(std::vector<u8>& run, u8 order, u64 value, u64 bytes) {
    for (u64 byte = 0; byte < bytes; ++byte) run.push_back(static_cast<u8>(value >> shift(order, byte, bytes)));
}

inline void put_record(std::vector<u8>& run, u8 order, u32 type, const u64* numbers, u64 count) {
    put(run, order, order, 1);
    put(run, order, type, 4);
    put(run, order, count, 4);
    for (u64 i = 0; i < count * stride(type); ++i) put(run, order, numbers[i], 8);
}

// Records may share coordinates, so that the bytes can exceed the slices many times.
inline u128 bytes_needed(const Chains& chains, u64 k) {
    u128 result = 0;
    for (u64 i = 0; i < k; ++i) result += 9 + u128(8) * stride(chains.type) * chains.record(i).coordinate_count;
    return result;
}

inline i64 write_wkb(const Chains& chains, u64 k, u8 order, std::vector<u8>& run, std::vector<u64>& lengths) {
    const int number = refusal({
        {12, [&] { return stride(chains.type) == 0; }},
        {16, [&] { return order > 1; }},
        {10, [&] { return any_is_no_chain(chains, k); }},
        {14, [&] { return bytes_needed(chains, k) > run.size() || k > lengths.size(); }},
    });
    if (number != 0) return -number;
    std::vector<u8> written;
    for (u64 i = 0; i < k; ++i) {
        const ChainRecord record = chains.record(i);
        const u64 before = written.size();
        const u64* numbers = chains.source(record).data() + record.first_coordinate * stride(chains.type);
        put_record(written, order, chains.type, numbers, record.coordinate_count);
        lengths[i] = written.size() - before;
    }
    std::copy(written.begin(), written.end(), run.begin());
    return static_cast<i64>(written.size());
}

// ---- WKB in

struct WkbRooms {
    std::vector<u64> coordinates;
    std::vector<u32> counts, wkb_type;
};

// What has been read of a run: the type is the first record's, and 2 for no records.
struct Read {
    u32 type = 2;
    std::vector<u64> coordinates;
    std::vector<u32> counts;
};

inline u64 get(const u8* bytes, u8 order, u64 count) {
    u64 result = 0;
    for (u64 byte = 0; byte < count; ++byte) result |= u64(bytes[byte]) << shift(order, byte, count);
    return result;
}

// Reads a record behind those that were read. The answer is its refusal, or 0.
inline int read_record(const u8* record, u64 length, Read& read) {
    if (length < 9) return 13;
    const u8 order = record[0];
    if (order > 1) return 11;
    const u32 type = static_cast<u32>(get(record + 1, order, 4));
    const u32 count = static_cast<u32>(get(record + 5, order, 4));
    if (stride(type) == 0) return 12;
    if (read.counts.empty()) read.type = type;
    if (type != read.type) return 25;
    if (9 + u128(8) * stride(type) * count != length) return 13;
    for (u64 i = 0; i < count * stride(type); ++i) read.coordinates.push_back(get(record + 9 + 8 * i, order, 8));
    read.counts.push_back(count);
    return 0;
}

inline bool lengths_do_not_add_up(const std::vector<u64>& lengths, u64 run_length) {
    u128 all = 0;
    for (u64 length : lengths) all += length;
    return all != run_length;
}

// 13 of all lengths before any record, 14 after all records.
inline i64 read_wkb(const std::vector<u8>& run, const std::vector<u64>& lengths, WkbRooms& rooms) {
    if (lengths_do_not_add_up(lengths, run.size())) return -13;
    Read read;
    const u8* record = run.data();
    for (u64 length : lengths) {
        if (int number = read_record(record, length, read)) return -number;
        record += length;
    }
    if (rooms.coordinates.size() < read.coordinates.size() || rooms.counts.size() < read.counts.size() ||
        rooms.wkb_type.empty())
        return -14;
    std::copy(read.coordinates.begin(), read.coordinates.end(), rooms.coordinates.begin());
    std::copy(read.counts.begin(), read.counts.end(), rooms.counts.begin());
    rooms.wkb_type[0] = read.type;
    return static_cast<i64>(lengths.size());
}

}  // namespace model
