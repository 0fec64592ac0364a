/* Pieces that a call lends, and what the rules say of them. */
#ifndef ZOOM_H
#define ZOOM_H

#include "build.h"

/* Pieces as they are lent. Lengths are in elements. */
struct pieces {
    const uint32_t *records, *members, *listing;
    const uint8_t *marks;
    const uint64_t *merged;
    size_t records_length, members_length, marks_length, listing_length, merged_length;
    uint64_t k;
};

/* True where 19 forbids the pieces of a call whose lines are accepted: each clause of the request by itself. */
bool pieces_are_bad(const struct building *call, const struct pieces *pieces);

#endif
