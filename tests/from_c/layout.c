/* How the structs of s2ix.h lie in memory: the place, the size and the type of each field, and that each call reads and writes the right field.
   No two fields of a struct have the same value here, so the test fails if two are exchanged. */
#include "checks.h"
#include "s2ix.h"

#include <stddef.h>
#include <stdint.h>
#include <string.h>

/* A field lies at a place of its struct, and is of a type. */
#define FIELD(struct, field, at, type)                                                                                                             \
    _Static_assert(offsetof(struct, field) == (at), #struct "." #field " lies elsewhere");                                                         \
    _Static_assert(sizeof((struct *)0)->field == sizeof(type), #struct "." #field " has another size");                                            \
    _Static_assert(_Generic(((struct *)0)->field, type : 1, default : 0), #struct "." #field " is of another type")
#define SIZE(struct, size) _Static_assert(sizeof(struct) == (size), #struct " has another size")

FIELD(s2ix_handle, address, 0, void *);
FIELD(s2ix_handle, is_open, sizeof(void *), bool);
SIZE(s2ix_handle, 2 * sizeof(void *));
FIELD(s2ix_row, cell, 0, uint64_t);
FIELD(s2ix_row, label, 8, uint32_t);
FIELD(s2ix_row, count, 12, uint32_t);
SIZE(s2ix_row, 16);
FIELD(s2ix_entry, cell, 0, uint64_t);
FIELD(s2ix_entry, label, 8, uint32_t);
FIELD(s2ix_entry, before, 12, uint32_t);
FIELD(s2ix_entry, after, 16, uint32_t);
SIZE(s2ix_entry, 24);
FIELD(s2ix_held_label, label, 0, uint32_t);
FIELD(s2ix_held_label, pairs, 4, uint32_t);
FIELD(s2ix_held_label, copies, 8, uint64_t);
SIZE(s2ix_held_label, 16);
FIELD(s2ix_leaf_range, start, 0, uint64_t);
FIELD(s2ix_leaf_range, limit, 8, uint64_t);
FIELD(s2ix_leaf_range, is_empty, 16, bool);
SIZE(s2ix_leaf_range, 24);
FIELD(s2ix_square, i, 0, uint32_t);
FIELD(s2ix_square, j, 4, uint32_t);
FIELD(s2ix_square, face, 8, uint8_t);
FIELD(s2ix_square, level, 9, uint8_t);
FIELD(s2ix_square, orientation, 10, uint8_t);
SIZE(s2ix_square, 12);
_Static_assert(sizeof(bool) == 1, "a bool is no byte");
_Static_assert(sizeof(size_t) == sizeof(void *), "a size is no word");

/* The number of some bytes of an object, from a place on. */
static uint64_t bytes_at(const void *object, size_t at, size_t size) {
    uint64_t number = 0;
    memcpy(&number, (const char *)object + at, size);
    return number;
}

#define EXPECT_ROW(row, its_cell, its_label, its_count)                                                                                            \
    (EXPECT(bytes_at(row, 0, 8), its_cell), EXPECT(bytes_at(row, 8, 4), its_label), EXPECT(bytes_at(row, 12, 4), its_count))

static const uint64_t cell = 0x0400000000000000, leaf = 0x0400000000000001;

/* A pair with 5 copies of label 9, by each call that puts or takes rows, and changes of it. */
static void rows_and_entries(void) {
    s2ix_handle handle = {0};
    const size_t bounds[] = {0, 1};
    size_t number, end;
    s2ix_row added = {0}, row = {0};
    s2ix_entry entry = {0};
    s2ix_held_label held = {0};
    const uint32_t label = 9, count = 5;
    memcpy((char *)&added, &cell, 8);
    memcpy((char *)&added + 8, &label, 4);
    memcpy((char *)&added + 12, &count, 4);
    EXPECT(s2ix_open(&handle, 10, 7, 3), S2IX_DONE);
    EXPECT(bytes_at(&handle, sizeof(void *), 1), 1);
    EXPECT(s2ix_add_all(&handle, &added, 1, &number), S2IX_DONE);
    EXPECT(s2ix_at(&handle, leaf, &row, 1, &number), S2IX_DONE);
    EXPECT_ROW(&row, cell, 9, 5);
    memset(&row, 0, sizeof row);
    EXPECT(s2ix_at_each(&handle, &leaf, 1, &end, 1, &row, 1, &number), S2IX_DONE);
    EXPECT_ROW(&row, cell, 9, 5);
    memset(&row, 0, sizeof row);
    EXPECT(s2ix_meet_each(&handle, &cell, 1, bounds, 2, &end, 1, &row, 1, &number), S2IX_DONE);
    EXPECT_ROW(&row, cell, 9, 5);
    memset(&row, 0, sizeof row);
    EXPECT(s2ix_meet(&handle, &cell, 1, &row, 1, &number), S2IX_DONE);
    EXPECT_ROW(&row, cell, 9, 5);
    memset(&row, 0, sizeof row);
    EXPECT(s2ix_meet_from(&handle, &cell, 1, 0, &row, 1, &number), S2IX_DONE);
    EXPECT_ROW(&row, cell, 9, 5);
    memset(&row, 0, sizeof row);
    EXPECT(s2ix_of_label(&handle, 9, &row, 1, &number), S2IX_DONE);
    EXPECT_ROW(&row, cell, 9, 5);
    memset(&row, 0, sizeof row);
    EXPECT(s2ix_pairs(&handle, 0, &row, 1, &number), S2IX_DONE);
    EXPECT_ROW(&row, cell, 9, 5);
    memset(&row, 0, sizeof row);
    EXPECT(s2ix_contents(&handle, 0, 0, &row, 1, &number), S2IX_DONE);
    EXPECT_ROW(&row, cell, 9, 5);
    EXPECT(s2ix_held_labels(&handle, &held, 1, &number), S2IX_DONE);
    EXPECT(bytes_at(&held, 0, 4), 9);
    EXPECT(bytes_at(&held, 4, 4), 1);
    EXPECT(bytes_at(&held, 8, 8), 5);
    EXPECT(s2ix_remove(&handle, cell, 9, 2, &number), S2IX_DONE);
    EXPECT(s2ix_change(&handle, 2, &entry, 1, &number), S2IX_DONE);
    EXPECT_ROW(&entry, cell, 9, 5);
    EXPECT(bytes_at(&entry, 16, 4), 3);
    EXPECT(s2ix_undo(&handle, &number), S2IX_DONE);
    EXPECT(s2ix_remove_all(&handle, &added, 1, &number), S2IX_DONE);
    EXPECT(s2ix_undo(&handle, &number), S2IX_DONE);
    EXPECT(s2ix_record(&handle, &entry, 1, &number), S2IX_DONE);
    /* (the limits are of copies, then of changes) */
    EXPECT(s2ix_add(&handle, cell, 9, 5, &number), S2IX_TOO_MANY_COPIES);
    EXPECT(s2ix_add(&handle, cell, 9, 4, &number), S2IX_DONE);
    EXPECT(s2ix_add(&handle, cell, 2, 1, &number), S2IX_JOURNAL_FULL);
    s2ix_close(&handle);
    EXPECT(bytes_at(&handle, sizeof(void *), 1), 0);
}

/* The first range of a store that holds face 1 alone: the leaves before that face, over which no pair lies. */
static void leaf_ranges(void) {
    s2ix_handle handle = {0};
    s2ix_leaf_range first = {7, 7, false};
    size_t number;
    EXPECT(s2ix_open(&handle, 10, 10, 10), S2IX_DONE);
    EXPECT(s2ix_add(&handle, 0x3000000000000000, 9, 1, &number), S2IX_DONE);
    EXPECT(s2ix_ranges(&handle, 0, &first, 1, &number), S2IX_DONE);
    EXPECT(bytes_at(&first, 0, 8), 1);
    EXPECT(bytes_at(&first, 8, 8), 0x2000000000000001);
    EXPECT(bytes_at(&first, 16, 1), 1);
    s2ix_close(&handle);
}

/* The square in column 5 and row 2 of level 3 of face 4. */
static void squares(void) {
    s2ix_square square = {0};
    uint64_t found;
    uint8_t level = 0, face = 0;
    EXPECT(s2ix_cell_from_face_ij(4, 5, 2, 3, &found), S2IX_DONE);
    EXPECT(s2ix_cell_level(found, &level) + s2ix_cell_face(found, &face), S2IX_DONE);
    EXPECT(level, 3);
    EXPECT(face, 4);
    EXPECT(s2ix_cell_to_face_ij(found, &square), S2IX_DONE);
    EXPECT(bytes_at(&square, 0, 4), 5);
    EXPECT(bytes_at(&square, 4, 4), 2);
    EXPECT(bytes_at(&square, 8, 1), 4);
    EXPECT(bytes_at(&square, 9, 1), 3);
    EXPECT(bytes_at(&square, 10, 1), square.orientation);
}

void check_layout(void) {
    rows_and_entries();
    leaf_ranges();
    squares();
}
