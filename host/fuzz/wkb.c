/* WKB: runs of records, mostly good, with lengths and rooms of any sort, and tables of any sort as records. */
#include <string.h>

#include "check.h"

enum { MOST_RECORDS = 8, MOST_BYTES = 1024, HEADER = 9 };

static struct slice run, lengths, coordinates, counts, type_read;

/* The number that bytes stand for, the greatest or the least first. */
static uint64_t number_of(const uint8_t *bytes, size_t width, bool big) {
    uint64_t number = 0;
    for (size_t i = 0; i < width; i++) {
        number = number << 8 | bytes[big ? i : width - 1 - i];
    }
    return number;
}

/* The refusal of one record, or 0. The first one's type is kept. */
static int64_t record_refusal(const uint8_t *record, size_t bytes, bool first, uint64_t *wkb_type) {
    if (bytes < HEADER) {
        return LOVASUKU_BAD_LENGTH;
    }
    if (record[0] > 1) {
        return LOVASUKU_BAD_BYTE_ORDER;
    }
    uint64_t own = number_of(record + 1, 4, record[0] == 0);
    if (width_of(own) == 0) {
        return LOVASUKU_BAD_TYPE;
    }
    *wkb_type = first ? own : *wkb_type;
    if (own != *wkb_type) {
        return LOVASUKU_MIXED_TYPES;
    }
    return bytes == HEADER + 8 * width_of(own) * number_of(record + 5, 4, record[0] == 0) ? 0 : LOVASUKU_BAD_LENGTH;
}

/* True where the lengths add up to the run's; what is left of it never wraps. */
static bool adds_up(const uint64_t *sizes, size_t n, size_t bytes) {
    uint64_t left = bytes;
    for (size_t i = 0; i < n; i++) {
        if (sizes[i] > left) {
            return false;
        }
        left -= sizes[i];
    }
    return left == 0;
}

/* The refusal of the call, or 0, and the type of its records. */
static int64_t refusal_of(const uint64_t *sizes, size_t n, size_t numbers, size_t rows, size_t types,
                          uint64_t *wkb_type) {
    *wkb_type = LOVASUKU_XY;
    if (!adds_up(sizes, n, run.bytes)) {
        return LOVASUKU_BAD_LENGTH;
    }
    const uint8_t *at = run.fill;
    size_t needed = 0;
    for (size_t i = 0; i < n; i++) {
        int64_t refusal = record_refusal(at, sizes[i], i == 0, wkb_type);
        if (refusal != 0) {
            return refusal;
        }
        needed += (sizes[i] - HEADER) / 8;
        at += sizes[i];
    }
    return needed > numbers || n > rows || types == 0 ? LOVASUKU_RECORD_ROOM_TOO_SHORT : 0;
}

/* Requires the rooms to have the records' numbers, counts and type, and to be as before beyond them. */
static void require_read(const uint64_t *sizes, size_t n, uint64_t wkb_type) {
    const uint8_t *at = run.fill;
    const uint64_t *number = coordinates.lent;
    const uint32_t *count = counts.lent;
    size_t read = 0;
    for (size_t i = 0; i < n; i++) {
        bool big = at[0] == 0;
        require(count[i] == number_of(at + 5, 4, big), "a count is the record's");
        for (size_t k = HEADER; k < sizes[i]; k += 8) {
            require(number[read++] == number_of(at + k, 8, big), "a number is the record's, bit for bit");
        }
        at += sizes[i];
    }
    require_untouched_from(&coordinates, 8 * read, "beyond the coordinates nothing is written");
    require_untouched_from(&counts, 4 * n, "beyond the counts nothing is written");
    require(*(const uint32_t *)type_read.lent == wkb_type, "the type is the first record's, or 2");
    require_untouched_from(&type_read, 4, "beyond the type nothing is written");
}

/* A record of a few coordinates, mostly of the given type, at times with a byte of its header changed; how many bytes it
 * has. */
static size_t next_record(struct bytes *bytes, uint32_t wkb_type, uint8_t *record) {
    size_t points = next_below(bytes, 4);
    uint8_t shape = next_byte(bytes);
    bool big = shape % 2 == 0;
    if (shape % 16 == 7) {
        wkb_type = next_type(bytes);
    }
    size_t width = width_of(wkb_type) == 0 ? 2 : width_of(wkb_type);
    record[0] = big ? 0 : 1;
    for (size_t i = 0; i < 4; i++) {
        record[1 + (big ? 3 - i : i)] = (uint8_t)(wkb_type >> 8 * i);
        record[5 + (big ? 3 - i : i)] = i == 0 ? (uint8_t)points : 0;
    }
    if (shape >= RARELY) {
        record[next_below(bytes, HEADER)] = next_byte(bytes);
    }
    for (size_t k = 0; k < width * points; k++) {
        uint64_t number = next_word(bytes);
        memcpy(record + HEADER + 8 * k, &number, sizeof number);
    }
    return HEADER + 8 * width * points;
}

/* Mostly the record's own length, at times one at an edge or any. */
static uint64_t next_size(struct bytes *bytes, size_t own) {
    static const uint64_t edges[] = {0, 8, 9, UINT64_MAX, 0x8000000000000000, 0x100000000, 25, 10};
    uint8_t choice = next_byte(bytes);
    return choice < RARELY ? own : rare_number(bytes, choice, edges, COUNT(edges), 8);
}

void fuzz_read_wkb(struct bytes *bytes) {
    if (run.capacity == 0) {
        make_input(&run, MOST_BYTES);
        make_input(&lengths, MOST_RECORDS * sizeof(uint64_t));
        make_room(&coordinates, MOST_BYTES);
        make_room(&counts, (MOST_RECORDS + 1) * sizeof(uint32_t));
        make_room(&type_read, 2 * sizeof(uint32_t));
    }
    static uint8_t made[MOST_BYTES];
    uint64_t sizes[MOST_RECORDS];
    size_t n = next_below(bytes, MOST_RECORDS + 1), used = 0, doubles = 0;
    uint32_t of_most = next_type(bytes);
    for (size_t i = 0; i < n; i++) {
        size_t own = next_record(bytes, of_most, made + used);
        sizes[i] = next_size(bytes, own);
        used += own;
        doubles += (own - HEADER) / 8;
    }
    lend_input(&run, next_length(bytes, used));
    memcpy(run.fill, made, run.bytes);
    lend_input(&lengths, n * sizeof(uint64_t));
    memcpy(lengths.fill, sizes, n * sizeof(uint64_t));
    size_t numbers = next_length(bytes, doubles), rows = next_length(bytes, n), types = next_length(bytes, 1);
    uint8_t dirt = next_byte(bytes);
    lend_room(&coordinates, 8 * numbers, dirt);
    lend_room(&counts, 4 * rows, dirt);
    lend_room(&type_read, 4 * types, dirt);
    int64_t answer = lovasuku_read_wkb(run.lent, run.bytes, lengths.lent, n, coordinates.lent, numbers, counts.lent, rows,
                                       type_read.lent, types);
    uint64_t wkb_type;
    int64_t refusal = refusal_of(sizes, n, numbers, rows, types, &wkb_type);
    require(answer == (refusal != 0 ? -refusal : (int64_t)n), "the records are counted or refused as the rules say");
    if (refusal != 0) {
        require_untouched_from(&coordinates, 0, "a refused call stores no coordinate");
        require_untouched_from(&counts, 0, "a refused call stores no count");
        require_untouched_from(&type_read, 0, "a refused call stores no type");
    } else {
        require_read(sizes, n, wkb_type);
    }
    seen(512 + (unsigned)refusal);
    seen(640 + (unsigned)width_of(wkb_type));
}

/* ---- writing */

enum { MOST_ROWS = 8, MOST_NUMBERS = 64, MOST_WRITTEN = 4096 };

static struct slice input, merged, table, written, sizes_written;

/* The bytes of the first k chains of coordinates of so many numbers, as a whole number; the rows are there. */
static uint64_t bytes_of(size_t width, const uint32_t *rows, uint64_t k) {
    uint64_t bytes = 0;
    for (uint64_t i = 0; i < k; i++) {
        bytes += HEADER + 8 * width * (uint64_t)rows[LOVASUKU_RECORD * i + 4];
    }
    return bytes;
}

/* The refusal of a writing call, or 0. */
static int64_t write_refusal(size_t width, size_t numbers, uint64_t k, uint8_t order, size_t room, size_t lengths_room) {
    const uint32_t *rows = (const uint32_t *)table.fill;
    if (width == 0) {
        return LOVASUKU_BAD_TYPE;
    }
    if (order > 1) {
        return LOVASUKU_UNKNOWN_ORDER;
    }
    for (uint64_t i = 0; i < k; i++) {
        if (!chain_is_there(width, input.bytes / 8, merged.bytes / 8, rows, numbers, i)) {
            return LOVASUKU_NO_SUCH_CHAIN;
        }
    }
    return bytes_of(width, rows, k) > room || k > lengths_room ? LOVASUKU_RECORD_ROOM_TOO_SHORT : 0;
}

/* Requires the rooms to have the chains' records, byte by byte, and to be as before beyond them. */
static void require_written(uint32_t wkb_type, uint64_t k, bool big) {
    size_t width = width_of(wkb_type);
    const uint32_t *rows = (const uint32_t *)table.fill;
    const uint8_t *at = written.fill;
    for (uint64_t i = 0; i < k; i++) {
        const uint32_t *row = rows + LOVASUKU_RECORD * i;
        const unsigned char *from = (row[2] == 0 ? input.fill : merged.fill) + 8 * width * row[3];
        uint64_t length;
        memcpy(&length, sizes_written.fill + 8 * i, sizeof length);
        require(length == HEADER + 8 * width * (uint64_t)row[4], "a length is the record's");
        require(at[0] == (big ? 0 : 1) && number_of(at + 1, 4, big) == wkb_type && number_of(at + 5, 4, big) == row[4],
                "a header has the order, the type and the count");
        for (size_t n = 0; n < width * row[4]; n++) {
            uint64_t number;
            memcpy(&number, from + 8 * n, sizeof number);
            require(number_of(at + HEADER + 8 * n, 8, big) == number, "a number is the chain's, bit for bit");
        }
        at += length;
    }
    require_untouched_from(&written, (size_t)(at - written.fill), "beyond the records nothing is written");
    require_untouched_from(&sizes_written, 8 * (size_t)k, "beyond the lengths nothing is written");
}

/* Mostly a small number, at times one whose double goes beyond 32 bits, at times any. */
static uint32_t next_entry(struct bytes *bytes, uint32_t bound) {
    static const uint64_t edges[] = {0x7fffffff, 0x80000000, 0xffffffff, 0xfffffffe, 0x40000000, 2};
    uint8_t choice = next_byte(bytes);
    return choice < 0xf0 ? choice % bound : (uint32_t)rare_number(bytes, choice, edges, COUNT(edges), 4);
}

static void fill_numbers(struct slice *slice, struct bytes *bytes) {
    size_t numbers = next_below(bytes, MOST_NUMBERS);
    lend_input(slice, 8 * numbers);
    for (size_t i = 0; i < numbers; i++) {
        uint64_t number = next_word(bytes);
        memcpy(slice->fill + 8 * i, &number, sizeof number);
    }
}

void fuzz_write_wkb(struct bytes *bytes) {
    if (table.capacity == 0) {
        make_input(&input, MOST_NUMBERS * 8);
        make_input(&merged, MOST_NUMBERS * 8);
        make_input(&table, MOST_ROWS * LOVASUKU_RECORD * sizeof(uint32_t));
        make_room(&written, MOST_WRITTEN + 1);
        make_room(&sizes_written, (MOST_ROWS + 1) * sizeof(uint64_t));
    }
    fill_numbers(&input, bytes);
    fill_numbers(&merged, bytes);
    size_t numbers = next_below(bytes, MOST_ROWS * LOVASUKU_RECORD + 1);
    lend_input(&table, numbers * sizeof(uint32_t));
    for (size_t i = 0; i < numbers; i++) {
        uint32_t entry = next_entry(bytes, i % LOVASUKU_RECORD == 2 ? 2 : 8);
        memcpy(table.fill + i * sizeof entry, &entry, sizeof entry);
    }
    static const uint64_t edges[] = {UINT64_MAX, 0x3333333333333334, 0x8000000000000000, 9};
    uint8_t choice = next_byte(bytes), order = choice % 16 == 15 ? choice : choice % 2;
    choice = next_byte(bytes);
    uint64_t k = choice < 0xf0 ? numbers / LOVASUKU_RECORD - (choice % 3 == 0 && numbers >= LOVASUKU_RECORD)
                               : rare_number(bytes, choice, edges, COUNT(edges), 8);
    uint32_t wkb_type = next_type(bytes);
    size_t width = width_of(wkb_type);
    /* Rooms for the chains that are there, and a little more or less. */
    int64_t refusal = write_refusal(width, numbers, k, order, SIZE_MAX, SIZE_MAX);
    uint64_t needed = refusal == 0 ? bytes_of(width, (const uint32_t *)table.fill, k) : 0;
    size_t room = next_length(bytes, needed < MOST_WRITTEN ? (size_t)needed : MOST_WRITTEN);
    size_t rows = next_length(bytes, k < MOST_ROWS ? (size_t)k : MOST_ROWS);
    uint8_t dirt = next_byte(bytes);
    lend_room(&written, room, dirt);
    lend_room(&sizes_written, 8 * rows, dirt);
    refusal = write_refusal(width, numbers, k, order, room, rows);
    int64_t answer = lovasuku_write_wkb(wkb_type, input.lent, input.bytes / 8, merged.lent, merged.bytes / 8, table.lent, numbers, k,
                                        order, written.lent, room, sizes_written.lent, rows);
    require(answer == (refusal != 0 ? -refusal : (int64_t)needed), "the bytes are counted or refused as the rules say");
    if (refusal != 0) {
        require_untouched_from(&written, 0, "a refused call stores no byte");
        require_untouched_from(&sizes_written, 0, "a refused call stores no length");
    } else {
        require_written(wkb_type, k, order == 0);
    }
    seen(576 + (unsigned)refusal);
}
