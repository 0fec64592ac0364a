// Cases: those of the rules' table, by letter, held to what the table says. They judge the model itself.
#pragma once

#include "suite.h"

namespace suites {

struct Answer {
    Lines lines;
    ChainRooms rooms;
    i64 chains;

    std::vector<u32> members(u64 k) const { return list(rooms.members, k); }
    std::vector<u32> listing(u64 k) const { return list(rooms.listing, k); }
    std::vector<u8> marks(u64 k) const { return list(rooms.marks, k); }
    // The x of a chain's coordinates; in the table's cases y tells nothing more.
    std::vector<double> xs(u64 k) const {
        std::vector<double> result;
        for (const Coordinate& at : chain_of(lines, rooms, k)) result.push_back(x(at));
        return result;
    }

private:
    template <class T>
    std::vector<T> list(const std::vector<T>& all, u64 k) const {
        const auto begin = all.begin() + rooms.table[6 * k];
        return std::vector<T>(begin, begin + rooms.table[6 * k + 1]);
    }
};

inline Answer built(Random& random, const std::vector<Places>& lines, const Settings& settings = Settings(),
                    const std::vector<u32>& groups = {}) {
    Answer answer;
    for (u64 i = 0; i < lines.size(); ++i) add_line(random, answer.lines, lines[i], groups.empty() ? 0 : groups[i]);
    answer.rooms = chain_rooms(random, answer.lines);
    answer.chains = put_build(answer.lines, settings, answer.rooms);
    return answer;
}

inline void building_cases(Random& random, u64) {
    using List = std::vector<u32>;
    using Marks = std::vector<u8>;
    using Xs = std::vector<double>;
    Settings snapping, limited;
    snapping.tolerance = 1;
    limited.switch_on = 1;
    limited.limit = -0.5;

    must_agree("case A", built(random, {}).chains == 0);

    const std::vector<Places> two = {{{0, 0}, {1, 0}}, {{1, 0}, {2, 0}}};
    Answer it = built(random, two);
    must_agree("case B", it.chains == 1 && it.members(0) == List{0, 1} && it.xs(0) == Xs{0, 1, 2});
    must_agree("case B, two groups", built(random, two, Settings(), {0, 1}).chains == 2);

    it = built(random, {{{1, 0}, {0, 0}}, {{1, 0}, {2, 0}}});
    must_agree("case C", it.members(0) == List{1, 0} && it.marks(0) == Marks{1, 0} && it.xs(0) == Xs{2, 1, 0});

    must_agree("case D", built(random, {{{0, 0}, {1, 0}, {0, 1}, {0, 0}}}).rooms.table[2] == 0);
    it = built(random, {{{0, 0}, {1, 0}}, {{1, 0}, {1, 1}, {0, 0}}});
    must_agree("case D, joined", it.chains == 1 && it.xs(0).size() == 4 && it.rooms.table[5] == 1);

    const std::vector<Places> junction = {{{-1, 0}, {0, 0}}, {{0, 0}, {1, 0}}, {{0, 0}, {0, 1}}};
    it = built(random, junction, limited);
    must_agree("case E", it.chains == 2 && it.members(0) == List{0, 1} && it.members(1) == List{2});
    must_agree("case E, off", built(random, junction).chains == 3);

    it = built(random, {{{0, 0}, {-0.0, 0}}, {{-0.0, 0}, {0, 0}}});
    must_agree("case F", it.chains == 1 && it.members(0).size() == 2 && it.xs(0).size() == 1);

    it = built(random, {{{0.25, 0}, {1.25, 0}}, {{1.75, 0}, {3.5, 0}}}, snapping);
    must_agree("case G", it.chains == 1 && it.xs(0).size() == 4);
    must_agree("case G, apart", built(random, {{{0.25, 0}, {1.25, 0}}, {{2, 0}, {3.5, 0}}}, snapping).chains == 2);

    it = built(random, {{{0, 0}, {1.25, 0}}, {{4.5, 0}, {3.5, 0}}, {{3.5, 0}, {1.75, 0}}}, snapping);
    must_agree("case H", it.members(0) == List{0, 1, 2} && it.xs(0) == Xs{0, 1.25, 1.75, 3.5, 4.5});
    must_agree("case H, [6]", it.marks(0) == Marks{0, 1, 1} && it.listing(0) == List{0, 2, 1});

    must_agree("case I", built(random, {{{0, 0}, {0, 0}, {1, 0}}}).xs(0).size() == 3);
    must_agree("case I, joined", built(random, {{{0, 0}, {0, 0}, {1, 0}}, {{1, 0}, {2, 0}}}).xs(0).size() == 3);
}

inline std::vector<u32> paired(Random& random, const Places& directions, const std::vector<u32>& pieces, double limit) {
    Ends ends;
    ends.present.assign(pieces.size(), 1);
    for (const Place& direction : directions) ends.directions.insert(ends.directions.end(), {direction.x, direction.y});
    ends.pieces = pieces;
    ends.limit = limit;
    const PairRooms before = {dirty<u32>(random, pieces.size()), dirty<u64>(random, 64 * pieces.size())};
    put_pairs(ends, Route::plain, before);
    PairRooms rooms = before;
    rooms.pairs.resize(u64(2 * model::pairs(ends, Route::plain, rooms)));
    return rooms.pairs;
}

inline Direction along_x(double dx) {
    return direction(Piece{0, {0}, {0}, {0}, {{bits(0.0), bits(0.0), 0, 0}, {bits(dx), bits(0.0), 0, 0}}}, 0);
}

inline void pairing_cases(Random& random, u64) {
    using List = std::vector<u32>;
    const Places east_west = {{1, 0}, {-1, 0}, {-1, 0}, {1, 0}}, turning = {{1, 0}, {-1, 0}, {0, 1}, {1, 0}};
    must_agree("case J", paired(random, east_west, {0, 1, 2, 3}, -1) == List{0, 1, 2, 3});
    must_agree("case K", paired(random, {{1, 0}, {-1, 0}, {1, 0}}, {7, 7, 8}, -1) == List{1, 2});
    must_agree("case L, -1", paired(random, turning, {0, 1, 2, 3}, -1) == List{0, 1});
    must_agree("case L, 0", paired(random, turning, {0, 1, 2, 3}, 0) == List{0, 1, 2, 3});
    must_agree("case M, small", along_x(0x1p-537).x == 1 && !along_x(0x1p-538).present);
    must_agree("case M, great", along_x(0x1p511).x == 1 && along_x(0x1p512).present && along_x(0x1p512).x == 0);
    must_agree("case N", cell(-0.25, 0, 1) == -1 && cell(-0.0, 0, 1) == 0);
}

}  // namespace suites
