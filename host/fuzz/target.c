/* The fuzz target: the first byte says which call is made, the others what of. */
#include <stdio.h>
#include <stdlib.h>
#include <string.h>

#include "check.h"

int LLVMFuzzerTestOneInput(const uint8_t *data, size_t size);

/* libFuzzer reads these beside the coverage of the harness, since the library itself is not instrumented. */
__attribute__((section("__libfuzzer_extra_counters"))) static uint8_t counters[4096];

void seen(unsigned what) {
    counters[what % sizeof counters] = 1;
}

void fail(const char *sentence) {
    fprintf(stderr, "does not hold: %s\n", sentence);
    abort();
}

uint8_t next_byte(struct bytes *bytes) {
    if (bytes->left == 0) {
        return 0;
    }
    bytes->left--;
    return *bytes->at++;
}

size_t next_below(struct bytes *bytes, size_t bound) {
    size_t number = next_byte(bytes);
    if (bound > 256) {
        number = number << 8 | next_byte(bytes);
    }
    return number % bound;
}

double double_of(uint64_t bits) {
    double number;
    memcpy(&number, &bits, sizeof number);
    return number;
}

uint64_t bits_of(double number) {
    uint64_t bits;
    memcpy(&bits, &number, sizeof bits);
    return bits;
}

size_t next_length(struct bytes *bytes, size_t wanted) {
    switch (next_byte(bytes)) {
    case 0xff:
        return wanted > 0 ? wanted - 1 : 0;
    case 0xfe:
        return 0;
    case 0xfd:
    case 0xfc:
        return wanted + 1;
    default:
        return wanted;
    }
}

/* NaN of several payloads, infinities, the powers of two at which a direction's length overflows or
 * vanishes, and those at which a difference does. */
static const uint64_t edges[] = {
    0x7ff8000000000000, 0x7ff8000000000001, 0xfff4000000000000, 0x7ff0000000000000, 0xfff0000000000000,
    0x0000000000000001, 0x8000000000000001, 0x0010000000000000, 0x1e50000000000000, 0x1e60000000000000,
    0x43e0000000000000, 0xc3e0000000000000, 0x5fe0000000000000, 0x5ff0000000000000, 0x7fefffffffffffff,
    0x7fe0000000000000, 0xffe0000000000000,
};

/* Places that lie in few cells. */
static const double places[] = {0.0, -0.0,  1.0,  -1.0, 2.0, -2.0, 3.0,  0.25,
                                0.5, -0.25, 1.25, 1.75, 3.5, 4.5,  1e-9, 1e9};

uint64_t rare_number(struct bytes *bytes, uint8_t choice, const uint64_t *edges, size_t count, int width) {
    if (choice < RARELY_ANY) {
        return edges[choice % count];
    }
    uint64_t number = 0;
    for (int i = 0; i < width; i++) {
        number = number << 8 | next_byte(bytes);
    }
    return number;
}

uint64_t next_word(struct bytes *bytes) {
    uint8_t choice = next_byte(bytes);
    return choice < RARELY ? bits_of(places[choice % COUNT(places)])
                           : rare_number(bytes, choice, edges, COUNT(edges), 8);
}

uint32_t next_type(struct bytes *bytes) {
    static const uint32_t types[] = {LOVASUKU_XY, LOVASUKU_XYZ, LOVASUKU_XYM, LOVASUKU_XYZM};
    static const uint64_t edges[] = {0, 1, 3, 1001, 1003, 2003, 3003, 4002, 0x80000002, 0x20000002};
    uint8_t choice = next_byte(bytes);
    if (choice < 0xf8) {
        return types[choice % COUNT(types)];
    }
    return (uint32_t)rare_number(bytes, choice == 0xff ? RARELY_ANY : next_byte(bytes) % 16, edges, COUNT(edges), 4);
}

size_t width_of(uint64_t wkb_type) {
    switch (wkb_type) {
    case 2:
        return 2;
    case 1002:
    case 2002:
        return 3;
    case 3002:
        return 4;
    default:
        return 0;
    }
}

double next_limit(struct bytes *bytes) {
    static const double limits[] = {-1.0, -0.5, -0.0, 0.0, 0.5, 1.0, -0.70710678118654752, -0.9};
    uint8_t choice = next_byte(bytes);
    return choice < 0xe0 ? limits[choice % COUNT(limits)] : double_of(next_word(bytes));
}

uint32_t next_offset(struct bytes *bytes) {
    static const uint64_t offsets[] = {0, 1, 999, 1000, 1001, 0x7fffffff, 0xffffffff};
    uint8_t choice = next_byte(bytes);
    return choice < RARELY ? (uint32_t)next_below(bytes, LOVASUKU_MOST_OFFSET + 1)
                           : (uint32_t)rare_number(bytes, choice, offsets, COUNT(offsets), 4);
}

double limit_of_offset(uint32_t offset) {
    int64_t answer = lovasuku_offset_limit(offset);
    double limit = double_of((uint64_t)answer);
    require(answer != -LOVASUKU_BAD_OFFSET && limit >= -1.0 && limit < -0.5, "an offset has a limit");
    uint64_t m = (uint64_t)(-limit * 0x1p53);
    unsigned __int128 slope = 1000000 + (unsigned __int128)offset * offset;
    unsigned __int128 whole = (unsigned __int128)1000000 << 106;
    require(-limit * 0x1p53 == (double)m, "the limit of an offset is a number of 2^-53");
    require((unsigned __int128)m * m * slope <= whole, "the limit of an offset is reached");
    require((unsigned __int128)(m + 1) * (m + 1) * slope > whole, "no lower number is reached");
    return limit;
}

bool limit_is_bad(double limit) {
    return !(limit >= -1.0 && limit <= 1.0);
}

int LLVMFuzzerTestOneInput(const uint8_t *data, size_t size) {
    struct bytes bytes = {data, size};
    switch (next_byte(&bytes) % 13) {
    case 0:
        fuzz_chain(&bytes);
        break;
    case 10:
        fuzz_window(&bytes);
        break;
    case 11:
    case 12:
        fuzz_check(&bytes);
        break;
    case 8:
        fuzz_read_wkb(&bytes);
        break;
    case 9:
        fuzz_write_wkb(&bytes);
        break;
    case 1:
    case 2:
    case 3:
        fuzz_pairs(&bytes);
        break;
    default:
        fuzz_build(&bytes);
    }
    return 0;
}
