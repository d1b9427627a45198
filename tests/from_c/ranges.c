/* Calls each export on ranges of leaves, and the visit from a place on, with their refusals, and says at which lines an answer was wrong. */
#include "checks.h"
#include "s2ix.h"

#include <stdint.h>

/* Face 0, its second child, the first leaf of that, the end of all leaves, and a number that is no cell's. */
static const uint64_t face = 0x1000000000000000, child = 0x0c00000000000000, leaf = 0x0800000000000001;
static const uint64_t all_end = 0xc000000000000001, no_cell = 6;
static const size_t far = SIZE_MAX;

static bool is_row(s2ix_row row, uint64_t cell, uint32_t label, uint32_t count) {
    return row.cell == cell && row.label == label && row.count == count;
}

static bool is_free(s2ix_row row) { return is_row(row, 7, 7, 7); }

static bool is_range(s2ix_leaf_range range, uint64_t start, uint64_t limit, bool is_empty) {
    return range.start == start && range.limit == limit && range.is_empty == is_empty;
}

static void refused_while_closed(void) {
    s2ix_handle handle = {0};
    s2ix_row row = {7, 7, 7};
    size_t number = 7, place = 7;
    uint64_t start = 7, limit = 7;
    bool is_empty = false;
    EXPECT(s2ix_range(&handle, 0, &start, &limit, &is_empty), S2IX_CLOSED);
    EXPECT(start == 0 && limit == 0 && is_empty, true);
    s2ix_leaf_range range = {7, 7, false};
    number = 7;
    EXPECT(s2ix_ranges(&handle, 0, &range, 1, &number), S2IX_CLOSED);
    EXPECT(number == 0 && is_range(range, 7, 7, false), true);
    number = 7;
    EXPECT(s2ix_contents(&handle, 0, 0, &row, 1, &number), S2IX_CLOSED);
    EXPECT(number == 0 && is_free(row), true);
    EXPECT(s2ix_next_full(&handle, 0, &place), S2IX_CLOSED);
    EXPECT(place, 0);
    place = 7;
    EXPECT(s2ix_previous_full(&handle, 1, &place), S2IX_CLOSED);
    EXPECT(place, 0);
    number = 7;
    EXPECT(s2ix_meet_from(&handle, &face, 1, 0, &row, 1, &number), S2IX_CLOSED);
    EXPECT(number == 0 && is_free(row) && !handle.is_open, true);
}

/* A store of no pairs has one range, over all leaves. */
static void empty(void) {
    s2ix_handle handle = {0};
    s2ix_row row = {7, 7, 7};
    size_t number = 7, place = 7;
    uint64_t start = 7, limit = 7;
    bool is_empty = false;
    EXPECT(s2ix_open(&handle, 10, 10, 10), S2IX_DONE);
    EXPECT(s2ix_range(&handle, 0, &start, &limit, &is_empty), S2IX_DONE);
    EXPECT(start == 1 && limit == all_end && is_empty, true);
    is_empty = false;
    EXPECT(s2ix_range(&handle, 1, &start, &limit, &is_empty), S2IX_NO_RANGE);
    EXPECT(start == 0 && limit == 0 && is_empty, true);
    s2ix_leaf_range ranges[2] = {{7, 7, false}, {7, 7, false}};
    EXPECT(s2ix_ranges(&handle, 0, ranges, 2, &number), S2IX_DONE);
    EXPECT(number == 1 && is_range(ranges[0], 1, all_end, true) && is_range(ranges[1], 7, 7, false), true);
    EXPECT(s2ix_contents(&handle, 0, 0, &row, 0, &number), S2IX_DONE);
    EXPECT(number == 0 && is_free(row), true);
    EXPECT(s2ix_next_full(&handle, 0, &place), S2IX_NO_RANGE);
    EXPECT(place, 0);
    EXPECT(s2ix_previous_full(&handle, far, &place), S2IX_NO_RANGE);
    EXPECT(s2ix_meet_from(&handle, &face, 1, 0, &row, 1, &number), S2IX_DONE);
    EXPECT(number == 0 && is_free(row), true);
    s2ix_close(&handle);
}

/* A store of the face under labels 5 and 6, its child and a leaf: ranges before the leaf's, over it, behind it, over the rest, and over none. */
static void open_zones(s2ix_handle *handle) {
    size_t number;
    EXPECT(s2ix_open(handle, 10, 10, 10), S2IX_DONE);
    EXPECT(s2ix_add(handle, face, 6, 1, &number), S2IX_DONE);
    EXPECT(s2ix_add(handle, face, 5, 2, &number), S2IX_DONE);
    EXPECT(s2ix_add(handle, child, 9, 3, &number), S2IX_DONE);
    EXPECT(s2ix_add(handle, leaf, 1, 1, &number), S2IX_DONE);
}

static void read_by_place(void) {
    static const uint64_t starts[6] = {1, 0x0800000000000001, 0x0800000000000003, 0x1000000000000001, 0x2000000000000001, 0xc000000000000001};
    s2ix_handle handle = {0};
    size_t number;
    uint64_t start, limit;
    bool is_empty;
    open_zones(&handle);
    EXPECT(s2ix_range_count(&handle, &number), S2IX_DONE);
    EXPECT(number, 5);
    for (size_t place = 0; place < 5; place++) {
        EXPECT(s2ix_range(&handle, place, &start, &limit, &is_empty), S2IX_DONE);
        EXPECT(start, starts[place]);
        EXPECT(limit, starts[place + 1]);
        EXPECT(is_empty, place == 4);
    }
    EXPECT(s2ix_range(&handle, 5, &start, &limit, &is_empty), S2IX_NO_RANGE);
    EXPECT(s2ix_range(&handle, far, &start, &limit, &is_empty), S2IX_NO_RANGE);
    EXPECT(start == 0 && limit == 0 && is_empty, true);
    s2ix_close(&handle);
}

/* Pages of each size from each place are what s2ix_range tells. */
static void read_by_pages(void) {
    s2ix_handle handle = {0};
    s2ix_leaf_range page[7];
    size_t number, count;
    open_zones(&handle);
    EXPECT(s2ix_range_count(&handle, &count), S2IX_DONE);
    for (size_t from = 0; from <= count; from++) {
        for (size_t room = 0; room <= 6; room++) {
            for (size_t k = 0; k < 7; k++) page[k] = (s2ix_leaf_range){7, 7, false};
            EXPECT(s2ix_ranges(&handle, from, page, room, &number), S2IX_DONE);
            EXPECT(number, room < count - from ? room : count - from);
            for (size_t k = 0; k < number; k++) {
                uint64_t start, limit;
                bool is_empty;
                EXPECT(s2ix_range(&handle, from + k, &start, &limit, &is_empty), S2IX_DONE);
                EXPECT(is_range(page[k], start, limit, is_empty), true);
            }
            EXPECT(is_range(page[number], 7, 7, false), true);
        }
    }
    number = 9;
    EXPECT(s2ix_ranges(&handle, far, page, 7, &number), S2IX_DONE);
    EXPECT(number, 0);
    s2ix_close(&handle);
}

static uint64_t drawn(uint64_t *state) {
    *state = *state * 6364136223846793005u + 1442695040888963407u;
    return *state >> 33;
}

/* So many leaves that the table is kept in parts: pages that begin and end within parts and between them are what s2ix_range tells. */
static void read_by_pages_of_parts(void) {
    enum { pairs = 2000, most = 700 };
    static const size_t rooms[4] = {1, 3, 256, most};
    static s2ix_row rows[pairs];
    static s2ix_leaf_range page[most];
    s2ix_handle handle = {0};
    uint64_t state = 1;
    size_t number, count;
    for (size_t k = 0; k < pairs; k++) {
        uint64_t cell = leaf + 2 * (drawn(&state) << 16);
        if (k % 3 == 0) EXPECT(s2ix_cell_parent(cell, (uint8_t)(drawn(&state) % 30), &cell), S2IX_DONE);
        rows[k] = (s2ix_row){cell, (uint32_t)(drawn(&state) % 9), 1};
    }
    EXPECT(s2ix_open(&handle, 1000000, 1000000, 10), S2IX_DONE);
    EXPECT(s2ix_add_all(&handle, rows, pairs, &number), S2IX_DONE);
    EXPECT(s2ix_range_count(&handle, &count), S2IX_DONE);
    EXPECT(count > 1000, true);
    for (size_t k = 0; k < 4; k++) {
        uint64_t next = 1;
        for (size_t place = 0; place < count; place += number) {
            EXPECT(s2ix_ranges(&handle, place, page, rooms[k], &number), S2IX_DONE);
            EXPECT(number, rooms[k] < count - place ? rooms[k] : count - place);
            if (number == 0) break;
            for (size_t at = 0; at < number; at++) {
                uint64_t start, limit;
                bool is_empty;
                EXPECT(s2ix_range(&handle, place + at, &start, &limit, &is_empty), S2IX_DONE);
                EXPECT(is_range(page[at], start, limit, is_empty) && start == next, true);
                next = limit;
            }
        }
        EXPECT(next, all_end);
    }
    s2ix_close(&handle);
}

static void read_contents(void) {
    s2ix_handle handle = {0};
    s2ix_row rows[5] = {{7, 7, 7}, {7, 7, 7}, {7, 7, 7}, {7, 7, 7}, {7, 7, 7}};
    size_t number = 9;
    open_zones(&handle);
    EXPECT(s2ix_contents(&handle, 1, 0, rows, 0, &number), S2IX_NO_ROOM);
    EXPECT(number == 4 && is_free(rows[0]), true);
    EXPECT(s2ix_contents(&handle, 1, 0, rows, 3, &number), S2IX_NO_ROOM);
    EXPECT(number == 4 && is_row(rows[0], leaf, 1, 1) && is_row(rows[1], child, 9, 3) && is_row(rows[2], face, 5, 2), true);
    EXPECT(is_free(rows[3]), true);
    EXPECT(s2ix_contents(&handle, 1, leaf, rows + 3, 1, &number), S2IX_NO_ROOM);
    EXPECT(number == 2 && is_row(rows[3], leaf, 1, 1) && is_free(rows[4]), true);
    EXPECT(s2ix_contents(&handle, 1, 0, rows, 4, &number), S2IX_DONE);
    EXPECT(number == 4 && is_row(rows[0], leaf, 1, 1) && is_row(rows[1], child, 9, 3), true);
    EXPECT(is_row(rows[2], face, 5, 2) && is_row(rows[3], face, 6, 1) && is_free(rows[4]), true);
    /* those that don't lie over the range before, a leaf number between, and one far out */
    EXPECT(s2ix_contents(&handle, 1, leaf, rows, 5, &number), S2IX_DONE);
    EXPECT(number == 2 && is_row(rows[1], child, 9, 3) && is_row(rows[2], face, 5, 2), true);
    EXPECT(s2ix_contents(&handle, 2, leaf + 2, rows, 0, &number), S2IX_DONE);
    EXPECT(number, 0);
    EXPECT(s2ix_contents(&handle, 3, 1, rows, 2, &number), S2IX_DONE);
    EXPECT(number == 2 && is_row(rows[0], face, 5, 2), true);
    EXPECT(s2ix_contents(&handle, 3, 2, rows, 2, &number), S2IX_DONE);
    EXPECT(number, 0);
    EXPECT(s2ix_contents(&handle, 0, UINT64_MAX, rows, 0, &number), S2IX_DONE);
    EXPECT(number, 0);
    EXPECT(s2ix_contents(&handle, 4, 0, rows, 0, &number), S2IX_DONE);
    EXPECT(number, 0);
    EXPECT(s2ix_contents(&handle, 5, 0, rows, 5, &number), S2IX_NO_RANGE);
    EXPECT(number, 0);
    EXPECT(s2ix_contents(&handle, far, 0, rows, 5, &number), S2IX_NO_RANGE);
    s2ix_close(&handle);
}

static void sought(void) {
    static const uint64_t last = 0xb000000000000000;
    s2ix_handle handle = {0};
    size_t number, place = 9;
    open_zones(&handle);
    EXPECT(s2ix_next_full(&handle, 0, &place), S2IX_DONE);
    EXPECT(place, 0);
    EXPECT(s2ix_next_full(&handle, 3, &place), S2IX_DONE);
    EXPECT(place, 3);
    EXPECT(s2ix_next_full(&handle, 4, &place), S2IX_NO_RANGE);
    EXPECT(place, 0);
    EXPECT(s2ix_next_full(&handle, far, &place), S2IX_NO_RANGE);
    EXPECT(s2ix_previous_full(&handle, far, &place), S2IX_DONE);
    EXPECT(place, 3);
    EXPECT(s2ix_previous_full(&handle, 5, &place), S2IX_DONE);
    EXPECT(place, 3);
    EXPECT(s2ix_previous_full(&handle, 1, &place), S2IX_DONE);
    EXPECT(place, 0);
    EXPECT(s2ix_previous_full(&handle, 0, &place), S2IX_NO_RANGE);
    /* with the last face held too, an empty range lies between two others */
    EXPECT(s2ix_add(&handle, last, 1, 1, &number), S2IX_DONE);
    EXPECT(s2ix_next_full(&handle, 4, &place), S2IX_DONE);
    EXPECT(place, 5);
    EXPECT(s2ix_previous_full(&handle, 5, &place), S2IX_DONE);
    EXPECT(place, 3);
    EXPECT(s2ix_previous_full(&handle, 6, &place), S2IX_DONE);
    EXPECT(place, 5);
    EXPECT(s2ix_next_full(&handle, 6, &place), S2IX_NO_RANGE);
    /* and with no pair on face 0 the first one is empty */
    EXPECT(s2ix_drop_label(&handle, 5, &number) + s2ix_drop_label(&handle, 6, &number) + s2ix_drop_label(&handle, 9, &number), S2IX_DONE);
    EXPECT(s2ix_remove(&handle, leaf, 1, 1, &number), S2IX_DONE);
    EXPECT(s2ix_next_full(&handle, 0, &place), S2IX_DONE);
    EXPECT(place, 1);
    EXPECT(s2ix_previous_full(&handle, 1, &place), S2IX_NO_RANGE);
    EXPECT(place, 0);
    s2ix_close(&handle);
}

static void visited(void) {
    const uint64_t refused[2] = {face, no_cell};
    s2ix_handle handle = {0};
    s2ix_row rows[5] = {{7, 7, 7}, {7, 7, 7}, {7, 7, 7}, {7, 7, 7}, {7, 7, 7}};
    size_t number = 9;
    open_zones(&handle);
    EXPECT(s2ix_meet_from(&handle, &face, 1, 0, rows, 0, &number), S2IX_DONE);
    EXPECT(number == 0 && is_free(rows[0]), true);
    EXPECT(s2ix_meet_from(&handle, &face, 1, 0, rows, 3, &number), S2IX_DONE);
    EXPECT(number == 3 && is_row(rows[0], face, 5, 2) && is_row(rows[1], face, 6, 1) && is_row(rows[2], leaf, 1, 1), true);
    EXPECT(is_free(rows[3]), true);
    EXPECT(s2ix_meet_from(&handle, &face, 1, 3, rows, 3, &number), S2IX_DONE);
    EXPECT(number == 1 && is_row(rows[0], child, 9, 3) && is_row(rows[1], face, 6, 1), true);
    EXPECT(s2ix_meet_from(&handle, &face, 1, 2, rows, 2, &number), S2IX_DONE);
    EXPECT(number == 2 && is_row(rows[0], leaf, 1, 1) && is_row(rows[1], child, 9, 3), true);
    EXPECT(s2ix_meet_from(&handle, &face, 1, 4, rows, 2, &number), S2IX_DONE);
    EXPECT(number, 0);
    EXPECT(s2ix_meet_from(&handle, &face, 1, far, rows, 2, &number), S2IX_DONE);
    EXPECT(number, 0);
    EXPECT(s2ix_meet_from(&handle, &face, 0, 0, rows, 5, &number), S2IX_DONE);
    EXPECT(number, 0);
    number = 9;
    EXPECT(s2ix_meet_from(&handle, refused, 2, 0, rows, 5, &number), S2IX_NO_CELL);
    EXPECT(number == 1 && is_row(rows[0], leaf, 1, 1), true);
    EXPECT(s2ix_meet_from(&handle, refused, 2, 0, rows, 0, &number), S2IX_NO_CELL);
    EXPECT(number, 1);
    s2ix_close(&handle);
}

/* Pages of what a leaf meets are those of s2ix_at, in any room and from any place. */
static void visited_leaf(void) {
    s2ix_handle handle = {0};
    s2ix_row all[4] = {{0}}, rows[6];
    size_t number;
    open_zones(&handle);
    EXPECT(s2ix_at(&handle, leaf, all, 4, &number), S2IX_DONE);
    EXPECT(number, 4);
    for (size_t from = 0; from <= 5; from++) {
        for (size_t room = 0; room <= 5; room++) {
            const size_t left = from < 4 ? 4 - from : 0;
            for (size_t k = 0; k < 6; k++) rows[k] = (s2ix_row){7, 7, 7};
            EXPECT(s2ix_meet_from(&handle, &leaf, 1, from, rows, room, &number), S2IX_DONE);
            EXPECT(number, room < left ? room : left);
            for (size_t k = 0; k < number; k++) EXPECT(is_row(rows[k], all[from + k].cell, all[from + k].label, all[from + k].count), true);
            EXPECT(is_free(rows[number]), true);
        }
    }
    EXPECT(s2ix_meet_from(&handle, &leaf, 1, far, rows, 5, &number), S2IX_DONE);
    EXPECT(number, 0);
    s2ix_close(&handle);
}

void check_ranges(void) {
    refused_while_closed();
    empty();
    read_by_place();
    read_by_pages();
    read_by_pages_of_parts();
    read_contents();
    sought();
    visited();
    visited_leaf();
}
