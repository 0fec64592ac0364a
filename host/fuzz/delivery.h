/* Chains made elsewhere: a delivery, and what the rules say of it. */
#ifndef DELIVERY_H
#define DELIVERY_H

#include "check.h"

enum { MOST_DELIVERED_LINES = 10, MOST_LINE_POINTS = 6, MOST_DELIVERED_POINTS = 80, MOST_CHAINS = 14 };

/* A delivery as it is lent. Lengths are in elements. */
struct delivery {
    uint32_t wkb_type;
    /* The numbers of a coordinate. */
    size_t width;
    size_t n, numbers, groups_length, kinds_length;
    const uint64_t *coordinates;
    const uint32_t *counts, *groups;
    const uint8_t *kinds;
    double tolerance, origin_x, origin_y;
    const uint32_t *table, *listing;
    const uint64_t *merged;
    size_t table_length, listing_length, merged_length;
    uint64_t k;
    size_t workspace;
};

/* The number of the first refusal that applies to a delivery, or 0: each clause of the request by itself, and a trial of
 * every choice of directions. */
int refusal_of_delivery(const struct delivery *delivery);

#endif
