/* Boxes as building leaves them, and what lies in a window: over these, and over boxes of any sort. */
#include <math.h>
#include <string.h>

#include "build.h"

enum { MOST_CHAINS = 40, MOST_NUMBERS = 8 * MOST_CHAINS + 80, MOST_FOUND = 4 * LOVASUKU_MOST_LINES };

static uint64_t lesser(uint64_t a, uint64_t b) {
    return double_of(b) < double_of(a) ? b : a;
}

static uint64_t greater(uint64_t a, uint64_t b) {
    return double_of(a) < double_of(b) ? b : a;
}

/* Makes a box reach around another; of equal numbers its own stay. */
static void reach_around(uint64_t *box, const uint64_t *other) {
    for (int k = 0; k < 2; k++) {
        box[k] = lesser(box[k], other[k]);
        box[k + 2] = greater(box[k + 2], other[k + 2]);
    }
}

static void require_box(const uint64_t *boxes, size_t at, const uint64_t *box) {
    require(memcmp(boxes + LOVASUKU_BOX * at, box, 8 * LOVASUKU_BOX) == 0,
            "a box is the least and the greatest of what it is around, of equal ones the first");
}

/* The box of a chain's coordinates. */
static void require_own_box(const struct building *call, size_t chain) {
    const uint32_t *record = call->table + LOVASUKU_RECORD * chain;
    const uint64_t *point = (record[2] == 0 ? call->coordinates : call->merged) + call->width * record[3];
    uint64_t box[LOVASUKU_BOX] = {bits_of(INFINITY), bits_of(INFINITY), bits_of(-INFINITY), bits_of(-INFINITY)};
    for (uint32_t i = 0; i < record[4]; i++, point += call->width) {
        const uint64_t spot[LOVASUKU_BOX] = {point[0], point[1], point[0], point[1]};
        reach_around(box, spot);
    }
    require_box(call->boxes, chain, box);
}

size_t require_boxes(const struct building *call, size_t chains) {
    for (size_t k = 0; k < chains; k++) {
        require_own_box(call, k);
    }
    size_t from = 0, above = chains;
    for (size_t count = chains; count > 1; count = (count + 1) / 2) {
        for (size_t i = 0; i < count; i += 2) {
            uint64_t box[LOVASUKU_BOX];
            memcpy(box, call->boxes + LOVASUKU_BOX * (from + i), sizeof box);
            if (i + 1 < count) {
                reach_around(box, call->boxes + LOVASUKU_BOX * (from + i + 1));
            }
            require_box(call->boxes, above + i / 2, box);
        }
        from += count;
        above += (count + 1) / 2;
    }
    return LOVASUKU_BOX * (chains == 0 ? 0 : above);
}

/* A window: least x, least y, greatest x, greatest y. */
struct window {
    double bound[4];
};

static bool is_bad(const struct window *window) {
    return !(window->bound[0] <= window->bound[2] && window->bound[1] <= window->bound[3]);
}

/* Along x (0) or y (1): the box is one, and they overlap or touch. */
static bool overlaps(const uint64_t *box, const struct window *window, int k) {
    double low = double_of(box[k]), high = double_of(box[k + 2]);
    return low <= high && low <= window->bound[k + 2] && window->bound[k] <= high;
}

static bool meets(const uint64_t *box, const struct window *window) {
    return overlaps(box, window, 0) && overlaps(box, window, 1);
}

/* The box of a chain and all above it meet the window; what is not wholly lent is not looked at. */
static bool is_shown(const uint64_t *boxes, size_t numbers, size_t k, const struct window *window, size_t chain) {
    size_t from = 0;
    for (size_t count = k, at = chain;; at /= 2) {
        size_t box = LOVASUKU_BOX * (from + at);
        if (box + LOVASUKU_BOX <= numbers && !meets(boxes + box, window)) {
            return false;
        }
        if (count <= 1) {
            return true;
        }
        from += count;
        count = (count + 1) / 2;
    }
}

static struct slice found;

/* Asks, and requires the chains that are shown, ascending, and nothing else. */
static void require_found(const void *lent, const uint64_t *boxes, size_t numbers, size_t k, size_t room,
                          const struct window *window, unsigned char dirt) {
    lend_room(&found, 4 * room, dirt);
    const double *bound = window->bound;
    int64_t answer =
        lovasuku_window(lent, numbers, k, bound[0], bound[1], bound[2], bound[3], found.lent, room);
    bool too_short = numbers < lovasuku_boxes_room(k) || room < k;
    int expected = is_bad(window) ? LOVASUKU_BAD_WINDOW : too_short ? LOVASUKU_ROOM_TOO_SHORT : 0;
    require(expected == 0 ? answer >= 0 : answer == -expected, "18, then 7, or the window is looked into");
    seen(2048 + (unsigned)(expected == 0 ? 64 + (answer < 32 ? answer : 32) : expected));
    size_t written = 0;
    for (size_t chain = 0; expected == 0 && chain < k; chain++) {
        if (is_shown(boxes, numbers, k, window, chain)) {
            uint32_t number = (uint32_t)chain;
            require((int64_t)written < answer && memcmp(found.fill + 4 * written, &number, 4) == 0,
                    "the chains whose boxes meet the window are found, ascending");
            written++;
        }
    }
    require(expected != 0 || (int64_t)written == answer, "no other chain is found");
    require_untouched_from(&found, 4 * written, "found is as before beyond what is written");
}

static struct window next_window(struct bytes *bytes) {
    struct window window;
    for (int k = 0; k < 4; k++) {
        window.bound[k] = double_of(next_word(bytes));
    }
    for (int k = 0; k < 2 && next_byte(bytes) < 0xe0; k++) {
        double low = fmin(window.bound[k], window.bound[k + 2]);
        window.bound[k + 2] = fmax(window.bound[k], window.bound[k + 2]);
        window.bound[k] = low;
    }
    return window;
}

void look_into(struct bytes *bytes, const struct building *call, const void *lent, size_t numbers, size_t chains) {
    if (found.capacity == 0) {
        make_room(&found, MOST_FOUND);
    }
    struct window window = next_window(bytes);
    require_found(lent, call->boxes, numbers, chains, chains, &window, next_byte(bytes));
    for (size_t k = 0; k < chains && !is_bad(&window); k++) {
        require(is_shown(call->boxes, numbers, chains, &window, k) == meets(call->boxes + LOVASUKU_BOX * k, &window),
                "on boxes as building left them a chain's own box decides");
    }
}

void fuzz_window(struct bytes *bytes) {
    static struct slice boxes;
    if (boxes.capacity == 0) {
        make_input(&boxes, MOST_NUMBERS * sizeof(double));
    }
    if (found.capacity == 0) {
        make_room(&found, MOST_FOUND);
    }
    size_t k = next_below(bytes, MOST_CHAINS + 1);
    size_t numbers = next_length(bytes, lovasuku_boxes_room(k));
    size_t room = next_length(bytes, k);
    struct window window = next_window(bytes);
    unsigned char dirt = next_byte(bytes);
    lend_input(&boxes, numbers * sizeof(double));
    for (size_t i = 0; i < numbers; i++) {
        uint64_t word = next_word(bytes);
        memcpy(boxes.fill + 8 * i, &word, sizeof word);
    }
    require_found(boxes.lent, (const uint64_t *)boxes.fill, numbers, k, room, &window, dirt);
}
