/* The chain question on tables of any sort. */
#include <string.h>

#include "check.h"

enum { MOST_NUMBERS = 64, MOST_COORDINATES = 64 };

bool chain_is_there(size_t width, size_t coordinates, size_t merged, const uint32_t *table, size_t numbers, uint64_t k) {
    if (k >= numbers / LOVASUKU_RECORD) {
        return false;
    }
    const uint32_t *record = table + LOVASUKU_RECORD * k;
    size_t length = record[2] == 0 ? coordinates : merged;
    return record[2] <= 1 && width * ((uint64_t)record[3] + record[4]) <= length;
}

/* Mostly a small number, at times one whose fourfold or sum goes beyond 32 bits, at times any. */
static uint32_t next_number(struct bytes *bytes) {
    static const uint64_t edges[] = {0x7fffffff, 0x80000000, 0x80000001, 0xffffffff, 0xfffffffe, 0x40000000};
    uint8_t choice = next_byte(bytes);
    return choice < RARELY ? choice % 32 : (uint32_t)rare_number(bytes, choice, edges, COUNT(edges), 4);
}

/* Mostly a small number, at times one whose sixfold goes beyond 64 bits, at times any. */
static uint64_t next_k(struct bytes *bytes) {
    static const uint64_t edges[] = {UINT64_MAX,         0x2aaaaaaaaaaaaaab, 0x5555555555555556,
                                     0xaaaaaaaaaaaaaaab, 0xd555555555555556, 0x8000000000000000,
                                     0x2aaaaaaaaaaaaaaa};
    uint8_t choice = next_byte(bytes);
    return choice < RARELY ? choice % 16 : rare_number(bytes, choice, edges, COUNT(edges), 8);
}

void fuzz_chain(struct bytes *bytes) {
    static struct slice coordinates, merged, table;
    if (table.capacity == 0) {
        make_input(&coordinates, MOST_COORDINATES * sizeof(double));
        make_input(&merged, MOST_COORDINATES * sizeof(double));
        make_input(&table, MOST_NUMBERS * sizeof(uint32_t));
    }
    size_t c = next_below(bytes, MOST_COORDINATES), m = next_below(bytes, MOST_COORDINATES);
    size_t numbers = next_below(bytes, MOST_NUMBERS);
    lend_input(&coordinates, c * sizeof(double));
    lend_input(&merged, m * sizeof(double));
    lend_input(&table, numbers * sizeof(uint32_t));
    for (size_t i = 0; i < numbers; i++) {
        uint32_t number = next_number(bytes);
        memcpy(table.fill + i * sizeof number, &number, sizeof number);
    }
    uint64_t k = next_k(bytes);
    uint32_t wkb_type = next_type(bytes);
    size_t width = width_of(wkb_type);
    int64_t answer = lovasuku_chain(wkb_type, coordinates.lent, c, merged.lent, m, table.lent, numbers, k);
    bool there = chain_is_there(width, c, m, (const uint32_t *)table.fill, numbers, k);
    require(answer == (width == 0 ? -LOVASUKU_BAD_TYPE : there ? 0 : -LOVASUKU_NO_SUCH_CHAIN),
            "the chain question is answered as the rules say");
    seen((unsigned)(2 * width) + there);
}
