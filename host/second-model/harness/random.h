// Random: one source of choices for each case, made of the seed, the suite and the case's index, so that a case is
// made again from these alone.
#pragma once

#include <initializer_list>
#include <iterator>
#include <utility>

#include "../model/numbers.h"

namespace harness {

using namespace model;

class Random {
public:
    Random(u64 seed, u64 suite, u64 index) : state_(mixed(mixed(mixed(seed) + suite) + index)) {}

    u64 bits() {
        state_ += 0x9E3779B97F4A7C15u;
        return mixed(state_);
    }
    // A number below n, which is above 0.
    u64 below(u64 n) { return (bits() >> 11) % n; }
    u64 between(u64 least, u64 greatest) { return least + below(greatest - least + 1); }
    bool one_in(u64 n) { return below(n) == 0; }
    bool coin() { return one_in(2); }
    double sign() { return coin() ? 1.0 : -1.0; }

    template <class List>
    decltype(auto) of(List&& list) {
        return *(std::begin(list) + static_cast<i64>(below(static_cast<u64>(std::end(list) - std::begin(list)))));
    }
    template <class T>
    T of(std::initializer_list<T> list) {
        return *(list.begin() + below(list.size()));
    }
    template <class List>
    void shuffle(List& list) {
        for (u64 i = list.size(); i > 1; --i) std::swap(list[i - 1], list[below(i)]);
    }

private:
    static u64 mixed(u64 z) {
        z = (z ^ (z >> 30)) * 0xBF58476D1CE4E5B9u;
        z = (z ^ (z >> 27)) * 0x94D049BB133111EBu;
        return (z ^ (z >> 31)) + 0x2545F4914F6CDD1Du;
    }
    u64 state_;
};

}  // namespace harness
