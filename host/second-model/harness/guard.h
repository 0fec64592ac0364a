// Guard: lends slices to a call and compares, byte by byte, what stands in each afterwards with what must.
//
// Each slice ends where a page begins that must not be touched, and begins behind a strip of known bytes. Inputs are
// lent in the same way; of them what must stand afterwards is what stood before. A slice of length 0 is lent by NULL,
// by an address that is never mapped, or by the guard page's.
#pragma once

#include <sys/mman.h>

#include <csignal>
#include <cstdlib>
#include <optional>
#include <vector>

#include "tally.h"

namespace harness {

// Memory that ends at a page which must not be touched.
class Fence {
public:
    // The address of so many bytes in front of the fence, with a strip of known bytes in front of them.
    u8* lend(size_t bytes) {
        if (bytes + strip > size_) map(bytes + strip);
        std::memset(end_ - bytes - strip, pattern, strip);
        return end_ - bytes;
    }
    static bool strip_is_whole(const u8* lent) {
        for (size_t i = 1; i <= strip; ++i)
            if (*(lent - i) != pattern) return false;
        return true;
    }

private:
    static constexpr size_t page = 4096, strip = 32;
    static constexpr u8 pattern = 0xA5;

    void map(size_t bytes) {
        if (end_ != nullptr) munmap(end_ - size_, size_ + page);
        size_ = (2 * bytes + page - 1) / page * page;
        void* all = mmap(nullptr, size_ + page, PROT_READ | PROT_WRITE, MAP_PRIVATE | MAP_ANONYMOUS, -1, 0);
        if (all == MAP_FAILED) std::abort();
        end_ = static_cast<u8*>(all) + size_;
        if (mprotect(end_, page, PROT_NONE) != 0) std::abort();
    }

    u8* end_ = nullptr;
    size_t size_ = 0;
};

// Where a call touches what it was not lent, tells which case it was and ends the run.
inline void tell_of_touch(int) {
    std::printf("DIFFERS: %s: a byte was touched that is not lent\n", tally().at.told().c_str());
    std::fflush(stdout);
    std::_Exit(1);
}

inline void watch() {
    std::signal(SIGSEGV, tell_of_touch);
    std::signal(SIGBUS, tell_of_touch);
}

class AnyLent {
public:
    virtual ~AnyLent() = default;
    // What differs from what must stand, told by slice and place.
    virtual std::optional<std::string> difference() const = 0;
};

// One call under comparison: the slices that it was lent, and the answer of the model.
class Comparison {
public:
    Comparison(std::string kind, i64 model_answers) : kind_(std::move(kind)), wanted_(model_answers) {}

    size_t add(const AnyLent* slice) {
        slices_.push_back(slice);
        return slices_.size() - 1;
    }

    // Compares the library's answer and every lent byte.
    void ends(i64 answer) const {
        tally().count(kind_, answer);
        std::string what;
        if (answer != wanted_)
            what = "the library answers " + std::to_string(answer) + ", the model " + std::to_string(wanted_);
        for (const AnyLent* slice : slices_)
            if (auto difference = slice->difference()) what += (what.empty() ? "" : "; ") + *difference;
        if (!what.empty()) tally().differs(kind_, what);
    }

private:
    std::string kind_;
    i64 wanted_;
    std::vector<const AnyLent*> slices_;
};

// The fence of a call's slice, by its number.
inline Fence& fence(size_t number) {
    static std::array<Fence, 24> all;
    return all.at(number);
}

// A slice that is held as Held and passed as Passed: coordinates are held as bits and passed as doubles.
template <class Held, class Passed = Held>
class Lent : public AnyLent {
public:
    // A room, with what must stand in it after the call.
    Lent(Comparison& call, const char* name, const std::vector<Held>& before, const std::vector<Held>& after)
        : name_(name), after_(after), number_(call.add(this)) {
        address_ = fence(number_).lend(bytes());
        if (bytes() > 0) std::memcpy(address_, before.data(), bytes());
    }
    // An input, which must stay.
    Lent(Comparison& call, const char* name, const std::vector<Held>& input) : Lent(call, name, input, input) {}
    Lent(const Lent&) = delete;

    size_t length() const { return after_.size(); }
    Passed* pointer() const {
        const u64 turn = length() > 0 ? 0 : (tally().at.index + number_) % 3;
        if (turn == 0) return reinterpret_cast<Passed*>(address_);
        return turn == 1 ? nullptr : reinterpret_cast<Passed*>(8);
    }

    std::optional<std::string> difference() const override {
        if (!Fence::strip_is_whole(address_)) return std::string(name_) + ": written in front of it";
        if (bytes() == 0 || std::memcmp(address_, after_.data(), bytes()) == 0) return std::nullopt;
        size_t place = 0;
        while (std::memcmp(address_ + place * sizeof(Held), &after_[place], sizeof(Held)) == 0) ++place;
        return std::string(name_) + " at place " + std::to_string(place) + ": " + std::to_string(at(place)) +
               " where the model has " + std::to_string(after_[place]);
    }

private:
    size_t bytes() const { return after_.size() * sizeof(Held); }
    Held at(size_t place) const {
        Held value;
        std::memcpy(&value, address_ + place * sizeof(Held), sizeof value);
        return value;
    }

    const char* name_;
    const std::vector<Held>& after_;
    size_t number_;
    u8* address_;
};

using LentDoubles = Lent<u64, double>;

}  // namespace harness
