/* Slices that end at a page that must not be touched, and inputs that cannot be written. */
#define _GNU_SOURCE
#include <stdlib.h>
#include <string.h>
#include <sys/mman.h>
#include <unistd.h>

#include "check.h"

enum { PAGE = 4096, BEFORE = 256 };

/* Maps `capacity` bytes of a file between two pages without any access. */
static unsigned char *map_between_guards(int file, size_t capacity, int access) {
    unsigned char *all = mmap(NULL, capacity + 2 * PAGE, PROT_NONE, MAP_PRIVATE | MAP_ANONYMOUS, -1, 0);
    require(all != MAP_FAILED, "memory is mapped");
    void *inner = mmap(all + PAGE, capacity, access, MAP_SHARED | MAP_FIXED, file, 0);
    require(inner != MAP_FAILED, "memory is mapped");
    return inner;
}

static void make(struct slice *slice, size_t capacity, int access) {
    slice->capacity = (capacity + BEFORE + PAGE - 1) / PAGE * PAGE;
    int file = memfd_create("slice", 0);
    require(file >= 0 && ftruncate(file, (off_t)slice->capacity) == 0, "memory is made");
    slice->base = map_between_guards(file, slice->capacity, PROT_READ | PROT_WRITE);
    slice->view = access == PROT_READ ? map_between_guards(file, slice->capacity, PROT_READ) : slice->base;
    close(file);
}

void make_input(struct slice *slice, size_t capacity) {
    make(slice, capacity, PROT_READ);
}

void make_room(struct slice *slice, size_t capacity) {
    make(slice, capacity, PROT_READ | PROT_WRITE);
}

void lend_input(struct slice *slice, size_t bytes) {
    require(bytes <= slice->capacity - BEFORE, "the harness has room for its slices");
    slice->bytes = bytes;
    slice->fill = slice->base + slice->capacity - bytes;
    slice->lent = bytes > 0 ? slice->view + slice->capacity - bytes : NULL;
}

void lend_room(struct slice *slice, size_t bytes, unsigned char dirt) {
    lend_input(slice, bytes);
    slice->dirt = dirt;
    memset(slice->fill - BEFORE, dirt, bytes + BEFORE);
}

/* True where all bytes are the given one. */
static bool all_are(const unsigned char *first, size_t bytes, unsigned char byte) {
    return bytes == 0 || (first[0] == byte && memcmp(first, first + 1, bytes - 1) == 0);
}

void require_untouched_from(const struct slice *room, size_t first, const char *sentence) {
    require(all_are(room->fill - BEFORE, BEFORE, room->dirt), "nothing before a room is written");
    require(all_are(room->fill + first, room->bytes - first, room->dirt), sentence);
}

void require_cleared(const struct slice *room, size_t bytes, const char *sentence) {
    require(all_are(room->fill, bytes, 0), sentence);
    require_untouched_from(room, bytes, sentence);
}
