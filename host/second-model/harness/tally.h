// Tally: how many calls of each kind were compared, refused and by which numbers, and which differ.
#pragma once

#include <array>
#include <cstdio>
#include <cstdlib>
#include <map>
#include <string>

#include "../model/numbers.h"

namespace harness {

using namespace model;

// The case at hand, as it is printed where a call differs.
struct Case {
    std::string suite;
    u64 seed = 0, index = 0;

    std::string told() const {
        return "suite " + suite + ", seed " + std::to_string(seed) + ", index " + std::to_string(index);
    }
};

struct Kind {
    u64 compared = 0, refused = 0, differ = 0;
    std::array<u64, 27> by_number{};
};

class Tally {
public:
    Case at;

    void count(const std::string& kind, i64 answer) {
        Kind& row = rows_[kind];
        ++row.compared;
        ++compared_;
        if (answer >= 0 || answer < -26) return;  // the bits of an offset's limit are below -26
        ++row.refused;
        ++row.by_number[static_cast<u64>(-answer)];
    }

    // Tells what differs. The run ends with the twentieth.
    void differs(const std::string& kind, const std::string& what) {
        ++rows_[kind].differ;
        ++differ_;
        std::printf("DIFFERS %s: %s: %s\n", kind.c_str(), at.told().c_str(), what.c_str());
        if (differ_ < 20) return;
        print();
        std::exit(1);
    }

    u64 compared() const { return compared_; }
    u64 differ() const { return differ_; }

    void print() const {
        for (const auto& [kind, row] : rows_) {
            std::printf("%-21s %8s compared, %8s refused%s, %s differ\n", kind.c_str(), text(row.compared).c_str(),
                        text(row.refused).c_str(), numbers(row).c_str(), text(row.differ).c_str());
        }
        std::printf("%s calls compared, %s differ\n", text(compared_).c_str(), text(differ_).c_str());
    }

private:
    static std::string text(u64 value) { return std::to_string(value); }

    // By which numbers calls were refused, each with how many.
    static std::string numbers(const Kind& row) {
        std::string result;
        for (u64 number = 0; number < row.by_number.size(); ++number) {
            if (row.by_number[number] == 0) continue;
            result += (result.empty() ? " by " : " ") + text(number) + " (" + text(row.by_number[number]) + ")";
        }
        return result;
    }

    std::map<std::string, Kind> rows_;
    u64 compared_ = 0, differ_ = 0;
};

inline Tally& tally() {
    static Tally only;
    return only;
}

}  // namespace harness
