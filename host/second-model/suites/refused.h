// Refused: calls with one thing wrong, or two, so that each refusal is met alone and beside the others.
#pragma once

#include "suite.h"

namespace suites {

inline double no_place(Random& random) { return random.of({not_a_number, infinity, -infinity}); }

// One thing wrong with the lines, where they have what can be wrong.
inline void break_lines(Random& random, Lines& lines) {
    switch (random.below(9)) {
        case 0: lines.type = random.coin() ? u32(random.below(4000)) : random.of({0x80000002u, 0u, 1003u}); break;
        case 1: lines.groups.push_back(1); break;
        case 2: shorten(lines.kinds); break;
        case 3: if (!lines.kinds.empty()) random.of(lines.kinds) = u8(random.between(2, 255)); break;
        case 4: lines.coordinates.push_back(bits(1.0)); break;
        case 5: shorten(lines.coordinates); break;
        case 6:
            if (!lines.counts.empty()) random.of(lines.counts) = random.one_in(3) ? 0xffffffffu : u32(random.below(5));
            break;
        default: if (!lines.coordinates.empty()) random.of(lines.coordinates) = bits(no_place(random));
    }
}

inline void break_settings(Random& random, Settings& settings) {
    switch (random.below(4)) {
        case 0: settings.switch_on = u8(random.between(2, 255)); break;
        case 1:
            settings.limit = random.of({not_a_number, infinity, -infinity, 1.0000000000000002, -1.0000000000000002});
            settings.offset = random.of({1001u, 0xffffffffu, 65536u});
            break;
        case 2: settings.origin_x = no_place(random); break;
        default: settings.origin_y = no_place(random);
    }
}

inline void break_rooms(Random& random, ChainRooms& rooms, const Lines& lines) {
    const u64 n = lines.counts.size(), numbers = lines.coordinates.size();
    switch (random.below(8)) {
        case 0: one_short(rooms.table, 6 * n); break;
        case 1: one_short(rooms.members, n); break;
        case 2: one_short(rooms.marks, n); break;
        case 3: one_short(rooms.listing, n); break;
        case 4: one_short(rooms.merged, numbers); break;
        case 5: one_short(rooms.boxes, 8 * n + 64); break;
        case 6: one_short(rooms.spare, numbers); break;
        default: one_short(rooms.workspace, 192 * n);
    }
}

inline void break_rooms(Random& random, PieceRooms& rooms, const Lines& lines) {
    const u64 n = lines.counts.size(), numbers = lines.coordinates.size();
    switch (random.below(6)) {
        case 0: one_short(rooms.pieces, 5 * n); break;
        case 1: one_short(rooms.members, n); break;
        case 2: one_short(rooms.marks, n); break;
        case 3: one_short(rooms.listing, n); break;
        case 4: one_short(rooms.merged, numbers); break;
        default: one_short(rooms.workspace, 192 * n);
    }
}

// Chains of sound lines, or what stands in dirty rooms, put to the check.
inline void put_broken_check(Random& random, const Lines& sound, const Lines& lines, const Settings& settings) {
    ChainRooms built = chain_rooms(random, sound);
    const i64 chains = model::build(sound, by_limit(any_settings(random)), built);
    u64 k = chains < 0 ? 0 : u64(chains);
    if (random.one_in(8) && !built.table.empty()) random.of(built.table) ^= 1u << random.below(32);
    if (random.one_in(10)) k = random.one_in(3) ? random.bits() : k + 1;
    std::vector<u64> room = workspace(random, lines);
    if (random.one_in(4)) one_short(room, 192 * lines.counts.size());
    put_check({lines, settings, built.table, k, built.listing, built.merged}, room);
}

// Up to two things wrong with the lines, two with the settings and one with the rooms, in building by one call and by
// two and in the check.
inline void broken_calls(Random& random, u64) {
    const Lines sound = few_places(random, 5, 3);
    Lines lines = sound;
    Settings settings = any_settings(random);
    const bool broken_room = random.one_in(3);
    for (u64 times = random.below(3); times > 0; --times) break_lines(random, lines);
    for (u64 times = random.below(3); times > 0; --times) break_settings(random, settings);

    ChainRooms rooms = chain_rooms(random, lines);
    if (broken_room) break_rooms(random, rooms, lines);
    put_build(lines, settings, rooms);

    settings.by_offset = false;
    PieceRooms pieces = piece_rooms(random, lines);
    if (broken_room) break_rooms(random, pieces, lines);
    put_first(lines, settings, pieces);

    PieceRooms lent = piece_rooms(random, sound);
    const i64 k = model::first(sound, Settings(), lent);
    if (random.one_in(4) && !lent.pieces.empty()) random.of(lent.pieces) ^= 1u << random.below(32);
    rooms = chain_rooms(random, lines);
    if (broken_room) break_rooms(random, rooms, lines);
    put_finish(lines, lent, k < 0 ? 0 : u64(k), settings, rooms);

    put_broken_check(random, sound, lines, settings);
}

}  // namespace suites
