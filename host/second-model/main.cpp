// Puts the same calls to the library and to the model, suite by suite, and compares everything.
//
//     second-model CALLS SEED                some CALLS calls, shared out among the suites
//     second-model CALLS SEED SUITE          as many of one suite
//     second-model CALLS SEED SUITE INDEX    the one case that a difference was told of
#include <cstdlib>

#include "suites/cases.h"
#include "suites/clauses.h"
#include "suites/deliveries.h"
#include "suites/junctions.h"
#include "suites/networks.h"
#include "suites/records.h"
#include "suites/sizes.h"
#include "suites/vast.h"
#include "suites/windows.h"

namespace suites {

// The name, the function, the number of cases where there is one, and the share of the calls.
const std::vector<Suite>& all() {
    static const std::vector<Suite> suites = {
        {"building-cases", building_cases, 1},
        {"pairing-cases", pairing_cases, 1},
        {"every-small-network", every_small_network, 9 * 3 * small_networks, 6},
        {"every-three-short-lines", every_three_short_lines, 5 * 2 * short_lines * short_lines * short_lines, 6},
        {"few-places", few_places_by_chance, 0, 8},
        {"stars", stars, 0, 4},
        {"towns", towns, 0, 1},
        {"long-lines", long_lines, 0, 2},
        {"districts", districts, 0, 2},
        {"cell-borders", cell_borders, 0, 6},
        {"limits-at-measures", limits_at_measures, 0, 4},
        {"greatest-sizes", greatest_sizes, sizes().size()},
        {"wrapping-counts", wrapping_counts, 4},
        {"vast-slices", vast_slices, 4},
        {"broken-calls", broken_calls, 0, 8},
        {"pieces-from-elsewhere", pieces_from_elsewhere, 0, 8},
        {"woven-chains", woven_chains, 0, 8},
        {"swinging-chain", swinging_chain, 0, 4},
        {"every-two-lines", every_two_lines, every_delivery_cases, 4},
        {"every-window", every_window, every_window_cases, 2},
        {"arbitrary-boxes", arbitrary_boxes, 0, 4},
        {"deep-boxes", deep_boxes, 4},
        {"every-level", every_level, 160},
        {"runs", runs, 0, 4},
        {"tables", tables, 0, 4},
        {"every-four-ends", every_four_ends, every_four_ends_cases, 4},
        {"few-directions", few_directions, 0, 6},
        {"many-directions", many_directions, 0, 1},
        {"greatest-ends", greatest_ends, 2},
        {"offsets", offsets, 1003},
    };
    return suites;
}

void put_case(const Suite& suite, u64 number, u64 seed, u64 index) {
    tally().at = {suite.name, seed, index};
    Random random(seed, number, index);
    try {
        suite.put(random, index);
    } catch (const std::exception& fault) {
        tally().differs("the model", fault.what());
    }
}

// An exhaustive suite is gone through in steps that meet each case once and are spread over all of them, so that a
// part of it is no beginning. Each of these suites has far fewer cases than the step, which is a prime.
u64 spread(u64 i, u64 cases) { return static_cast<u64>(u128(i) * 2654435761u % cases); }

void put_suite(const Suite& suite, u64 number, u64 seed, u64 calls) {
    const u64 before = tally().compared();
    for (u64 i = 0; tally().compared() - before < calls && (suite.cases == 0 || i < suite.cases); ++i)
        put_case(suite, number, seed, suite.cases == 0 ? i : spread(i, suite.cases));
}

u64 weights() {
    u64 result = 0;
    for (const Suite& suite : all()) result += suite.weight;
    return result;
}

// A short suite is always gone through to its end.
void put_all(u64 calls, u64 seed) {
    for (u64 number = 0; number < all().size(); ++number) {
        const Suite& suite = all()[number];
        const bool is_short = suite.cases > 0 && suite.cases < 2000;
        put_suite(suite, number, seed, is_short ? ~u64(0) : calls * suite.weight / weights() + 1);
    }
}

// The number of the suite of a name, or how many there are where none has it.
u64 number_of(const std::string& name) {
    u64 number = 0;
    while (number < all().size() && name != all()[number].name) ++number;
    return number;
}

}  // namespace suites

int main(int count, char** words) {
    using namespace suites;
    const auto number = [&](int place, u64 otherwise) {
        return place < count ? std::strtoull(words[place], nullptr, 10) : otherwise;
    };
    const u64 calls = number(1, 300000), seed = number(2, 1);
    const u64 suite = count > 3 ? number_of(words[3]) : 0, index = number(4, 0);
    if (suite == all().size() || (all()[suite].cases > 0 && index >= all()[suite].cases)) {
        std::fprintf(stderr, "second-model: there is no such suite or no such case of it\n");
        return 2;
    }
    watch();
    if (count <= 3) put_all(calls, seed);
    if (count == 4) put_suite(all()[suite], suite, seed, calls);
    if (count > 4) put_case(all()[suite], suite, seed, index);
    tally().print();
    return tally().differ() == 0 ? 0 : 1;
}
