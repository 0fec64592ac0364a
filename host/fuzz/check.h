/* What every part of the fuzz target uses: requirements, bytes, and guarded memory. */
#ifndef CHECK_H
#define CHECK_H

#include <stdbool.h>
#include <stddef.h>
#include <stdint.h>

#include "lovasuku.h"

/* Stops the run with a sentence about what does not hold. */
void fail(const char *sentence);

static inline void require(bool holds, const char *sentence) {
    if (!holds) {
        fail(sentence);
    }
}

/* Tells libFuzzer that a call showed something: a call that shows it for the first time is kept. */
void seen(unsigned what);

/* ---- the bytes that a call is made of; beyond their end they are 0 */

struct bytes {
    const uint8_t *at;
    size_t left;
};

uint8_t next_byte(struct bytes *bytes);

/* A number below the bound, which is above 0. */
size_t next_below(struct bytes *bytes, size_t bound);

/* The length that a slice should have, at times another. */
size_t next_length(struct bytes *bytes, size_t wanted);

#define COUNT(list) (sizeof(list) / sizeof *(list))

/* A byte from RARELY on chooses a rare number: one at an edge or, from RARELY_ANY on, any of so many bytes. */
enum { RARELY = 0xc0, RARELY_ANY = 0xf0 };
uint64_t rare_number(struct bytes *bytes, uint8_t choice, const uint64_t *edges, size_t count, int width);

/* The bits of a double: mostly one of a few, so that ends meet, and at times any. */
uint64_t next_word(struct bytes *bytes);

/* A type: mostly one of the four. */
uint32_t next_type(struct bytes *bytes);

/* The numbers of a coordinate of a type, and 0 for a number that is none. */
size_t width_of(uint64_t wkb_type);

/* A limit: mostly from -1 to 1. */
double next_limit(struct bytes *bytes);

/* An offset: mostly up to 1,000. */
uint32_t next_offset(struct bytes *bytes);

double double_of(uint64_t bits);

uint64_t bits_of(double number);

/* ---- memory that ends at a page that must not be touched */

/* A slice that is lent. `fill` is where the harness writes. An input's `lent` is the same memory mapped a
 * second time, read-only; a room's `lent` is `fill`. */
struct slice {
    unsigned char *fill;
    void *lent;
    size_t bytes;
    unsigned char *base;
    unsigned char *view;
    size_t capacity;
    unsigned char dirt;
};

/* Makes the slice an input or a room of up to `capacity` bytes. */
void make_input(struct slice *slice, size_t capacity);
void make_room(struct slice *slice, size_t capacity);

/* Gives the slice a length, so that it ends where its memory ends; an empty one is lent as NULL. A room is dirty
 * from then on. */
void lend_input(struct slice *slice, size_t bytes);
void lend_room(struct slice *slice, size_t bytes, unsigned char dirt);

/* Requires a room to be as before from a byte on, and what stands before it too. */
void require_untouched_from(const struct slice *room, size_t first, const char *sentence);

/* Requires a room to be zero up to a byte, and as before from there on. */
void require_cleared(const struct slice *room, size_t bytes, const char *sentence);

/* ---- the calls */

void fuzz_build(struct bytes *bytes);
void fuzz_pairs(struct bytes *bytes);
void fuzz_chain(struct bytes *bytes);
void fuzz_window(struct bytes *bytes);
void fuzz_check(struct bytes *bytes);
void fuzz_read_wkb(struct bytes *bytes);
void fuzz_write_wkb(struct bytes *bytes);

/* What the rules say of the chain question on coordinates of so many numbers, and of a limit. */
bool chain_is_there(size_t width, size_t coordinates, size_t merged, const uint32_t *table, size_t numbers, uint64_t k);
bool limit_is_bad(double limit);

/* The limit of an offset up to 1,000, which is required to be the one that the rules define. */
double limit_of_offset(uint32_t offset);

#endif
