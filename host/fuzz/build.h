/* A building call, and what is required of its answer. */
#ifndef BUILD_H
#define BUILD_H

#include "check.h"

/* A call, with what is lent to it. Lengths are in elements. */
struct building {
    const uint64_t *coordinates;
    const uint32_t *counts, *groups;
    const uint8_t *kinds;
    uint32_t wkb_type;
    /* The numbers of a coordinate. */
    size_t width;
    size_t n, c;
    double tolerance, origin_x, origin_y, limit;
    uint8_t switch_on;
    /* Whether the offset stands in the limit's place; the limit is then the offset's, NaN above 1,000. */
    bool by_offset;
    uint32_t offset;
    /* The rooms as an accepted call has left them. */
    const uint32_t *table, *members;
    const uint8_t *marks;
    const uint32_t *listing;
    const uint64_t *merged, *boxes;
};

/* Requires the answer of an accepted call to be well formed. Gives the numbers of merged that were written.
 */
size_t require_built(const struct building *call, size_t chains);

/* Requires the boxes of an accepted call to be those of its chains, level by level. Gives how many of their numbers were
 * written. */
size_t require_boxes(const struct building *call, size_t chains);

/* Looks into a window of the bytes over the chains of an accepted call, by its boxes of so many numbers. */
void look_into(struct bytes *bytes, const struct building *call, const void *lent, size_t numbers, size_t chains);

/* Requires the chains of an accepted call of so many numbers, with so many merged ones, to be acceptable as if they had
 * been made elsewhere. */
void require_acceptable(const struct building *call, size_t numbers, size_t chains, size_t merged_numbers);

/* Requires building in two calls to write what the accepted call has written, so many merged numbers and numbers of boxes,
 * and finishes pieces of any sort. */
void require_parted(struct bytes *bytes, const struct building *call, size_t chains, size_t merged, size_t boxes);

#endif
