/* Calls each export of the library, with its refusals, and says 'c library: well', or the first lines at which an answer was wrong. */
#include "blocks.h"
#include "checks.h"
#include "s2ix.h"

#include <stdint.h>
#include <stdio.h>
#include <string.h>

/* Two neighbours on face 0, the face, a leaf below the first, and numbers that are no cells. */
static const uint64_t first = 0x0400000000000000, second = 0x0c00000000000000, face = 0x1000000000000000, leaf = 0x0400000000000001;
static const uint64_t no_cell = 6, highest_label = 2147483647;
static const s2ix_row wrong_rows[] = {{0x0400000000000000, 1, 1}, {0x0400000000000000, UINT32_MAX, 1}};
static const uint64_t wrong_cells[] = {0x0400000000000000, 6};

static void refused_while_closed(void) {
    s2ix_handle handle = {0};
    size_t number = 7;
    s2ix_row row = {1, 2, 3};
    uint32_t label = 9;
    uint64_t cell = 9;
    uint8_t byte[1] = {9};
    EXPECT(s2ix_add(&handle, first, 1, 1, &number), S2IX_CLOSED);
    EXPECT(number, 0);
    number = 7;
    EXPECT(s2ix_add_all(&handle, &row, 0, &number), S2IX_CLOSED);
    EXPECT(number, 0);
    EXPECT(s2ix_add_all(&handle, wrong_rows, 2, &number), S2IX_NO_LABEL);
    EXPECT(number, 1);
    EXPECT(s2ix_add_all(&handle, wrong_rows, 1, &number), S2IX_CLOSED);
    EXPECT(number, 0);
    EXPECT(s2ix_remove(&handle, first, 1, 1, &number), S2IX_CLOSED);
    EXPECT(s2ix_add_union(&handle, &first, 1, 1, &number), S2IX_CLOSED);
    EXPECT(s2ix_add_union(&handle, &first, 0, UINT32_MAX, &number), S2IX_NO_LABEL);
    EXPECT(s2ix_add_union(&handle, wrong_cells, 2, UINT32_MAX, &number), S2IX_NO_LABEL);
    EXPECT(number, 0);
    EXPECT(s2ix_add_union(&handle, wrong_cells, 2, 1, &number), S2IX_NO_CELL);
    EXPECT(number, 1);
    EXPECT(s2ix_drop_label(&handle, 1, &number), S2IX_CLOSED);
    EXPECT(s2ix_relabel(&handle, 1, 2, &number), S2IX_CLOSED);
    EXPECT(s2ix_grow(&handle, 1, 2, &number), S2IX_CLOSED);
    EXPECT(s2ix_normalise_label(&handle, 1, &number), S2IX_CLOSED);
    EXPECT(s2ix_revert(&handle, 1, &number), S2IX_CLOSED);
    EXPECT(s2ix_undo(&handle, &number), S2IX_CLOSED);
    EXPECT(s2ix_redo(&handle, &number), S2IX_CLOSED);
    EXPECT(s2ix_forget(&handle), S2IX_CLOSED);
    EXPECT(s2ix_forget_older(&handle, 1), S2IX_CLOSED);
    EXPECT(s2ix_join(&handle, 0, &number), S2IX_CLOSED);
    EXPECT(number, 0);
    EXPECT(s2ix_clear(&handle), S2IX_CLOSED);
    number = 7;
    EXPECT(s2ix_at(&handle, leaf, &row, 1, &number), S2IX_CLOSED);
    EXPECT(number, 0);
    EXPECT(s2ix_meet(&handle, &face, 1, &row, 1, &number), S2IX_CLOSED);
    EXPECT(row.cell + row.label + row.count, 6);
    EXPECT(s2ix_labels(&handle, &face, 1, &label, 1, &number), S2IX_CLOSED);
    EXPECT(label, 9);
    EXPECT(s2ix_region(&handle, 1, &cell, 1, &number), S2IX_CLOSED);
    EXPECT(cell, 9);
    EXPECT(s2ix_journal(&handle, byte, 1, &number), S2IX_CLOSED);
    EXPECT(number, 0);
    EXPECT(byte[0], 9);
    EXPECT(s2ix_of_label(&handle, 1, &row, 1, &number), S2IX_CLOSED);
    number = 7;
    EXPECT(s2ix_pairs(&handle, 0, &row, 1, &number), S2IX_CLOSED);
    EXPECT(number, 0);
    EXPECT(row.cell + row.label + row.count, 6);
    EXPECT(s2ix_dump(&handle, byte, 1, &number), S2IX_CLOSED);
    EXPECT(byte[0], 9);
    number = 7;
    EXPECT(s2ix_line(&handle, byte, 0, byte, 1, &number), S2IX_CLOSED);
    EXPECT(number, 0);
    EXPECT(byte[0], 9);
    s2ix_close(&handle);
    s2ix_close(&handle);
    EXPECT(handle.is_open, false);
}

static void untold_while_closed(void) {
    s2ix_handle handle = {0}, other = {0};
    size_t number = 7;
    uint32_t count = 9;
    uint64_t copies = 9;
    EXPECT(s2ix_count(&handle, first, 1, &count), S2IX_CLOSED);
    EXPECT(count, 0);
    EXPECT(s2ix_len(&handle, &number), S2IX_CLOSED);
    EXPECT(s2ix_copies(&handle, &copies), S2IX_CLOSED);
    EXPECT(copies, 0);
    EXPECT(s2ix_range_count(&handle, &number), S2IX_CLOSED);
    EXPECT(number, 0);
    EXPECT(s2ix_done_count(&handle, &number), S2IX_CLOSED);
    EXPECT(s2ix_undone_count(&handle, &number), S2IX_CLOSED);
    EXPECT(s2ix_faces_rebuilt(&handle, &number), S2IX_CLOSED);
    EXPECT(number, 0);
    EXPECT(s2ix_copy(&handle, &other), S2IX_CLOSED);
    EXPECT(other.is_open, false);
    EXPECT(handle.is_open, false);
}

static void opened(void) {
    s2ix_handle handle = {0};
    size_t number;
    EXPECT(s2ix_open(&handle, 0, 1, 1), S2IX_NO_LIMITS);
    EXPECT(s2ix_open(&handle, 1000001, 1, 1), S2IX_NO_LIMITS);
    EXPECT(s2ix_open(&handle, 1, 0, 1), S2IX_NO_LIMITS);
    EXPECT(s2ix_open(&handle, 1, 1, 0), S2IX_NO_LIMITS);
    EXPECT(s2ix_open(&handle, 1, 1, 100001), S2IX_NO_LIMITS);
    EXPECT(handle.is_open, false);
    EXPECT(s2ix_open(&handle, 1000000, UINT32_MAX, 100000), S2IX_DONE);
    EXPECT(handle.is_open, true);
    EXPECT(s2ix_add(&handle, first, 1, 1, &number), S2IX_DONE);
    EXPECT(s2ix_open(&handle, 0, 0, 0), S2IX_NO_LIMITS);
    EXPECT(s2ix_len(&handle, &number), S2IX_DONE);
    EXPECT(number, 1);
    EXPECT(s2ix_open(&handle, 5, 5, 5), S2IX_DONE);
    EXPECT(s2ix_len(&handle, &number), S2IX_DONE);
    EXPECT(number, 0);
    s2ix_close(&handle);
    s2ix_close(&handle);
}

/* The steps of a store with three changes, of which the journal holds four. */
static void stepped(s2ix_handle *handle) {
    size_t number;
    EXPECT(s2ix_revert(handle, 0, &number), S2IX_NO_SUCH_CHANGE);
    EXPECT(s2ix_revert(handle, 2, &number), S2IX_DONE);
    EXPECT(s2ix_revert(handle, 1, &number), S2IX_JOURNAL_FULL);
    EXPECT(s2ix_undo(handle, &number), S2IX_DONE);
    EXPECT(number, 1);
    EXPECT(s2ix_done_count(handle, &number), S2IX_DONE);
    EXPECT(number, 3);
    EXPECT(s2ix_undone_count(handle, &number), S2IX_DONE);
    EXPECT(number, 1);
    EXPECT(s2ix_faces_rebuilt(handle, &number), S2IX_DONE);
    EXPECT(number, 1);
    EXPECT(s2ix_redo(handle, &number), S2IX_DONE);
    EXPECT(s2ix_redo(handle, &number), S2IX_NOTHING_TO_REDO);
    EXPECT(number, 0);
    EXPECT(s2ix_forget(handle), S2IX_DONE);
    EXPECT(s2ix_undo(handle, &number), S2IX_NOTHING_TO_UNDO);
}

static void edited(void) {
    s2ix_handle handle = {0};
    size_t number;
    uint32_t count;
    uint64_t copies, both[2] = {second, first};
    EXPECT(s2ix_open(&handle, 4, 5, 4), S2IX_DONE);
    EXPECT(s2ix_add(&handle, no_cell, 1, 1, &number), S2IX_NO_CELL);
    EXPECT(number, 0);
    EXPECT(s2ix_add(&handle, first, (uint32_t)highest_label + 1, 1, &number), S2IX_NO_LABEL);
    EXPECT(s2ix_add(&handle, first, 1, 0, &number), S2IX_NO_CHANGE);
    EXPECT(s2ix_add(&handle, first, 1, 6, &number), S2IX_TOO_MANY_COPIES);
    EXPECT(s2ix_add(&handle, first, (uint32_t)highest_label, 2, &number), S2IX_DONE);
    EXPECT(number, 1);
    EXPECT(s2ix_remove(&handle, first, (uint32_t)highest_label, 3, &number), S2IX_NOT_HELD);
    EXPECT(s2ix_remove(&handle, no_cell, 1, 1, &number), S2IX_NO_CELL);
    EXPECT(s2ix_remove(&handle, first, (uint32_t)highest_label, 2, &number), S2IX_DONE);
    EXPECT(s2ix_len(&handle, &number), S2IX_DONE);
    EXPECT(number, 0);
    EXPECT(s2ix_add_union(&handle, both, 2, 1, &number), S2IX_DONE);
    EXPECT(number, 2);
    both[1] = no_cell;
    EXPECT(s2ix_add_union(&handle, both, 2, 1, &number), S2IX_NO_CELL);
    EXPECT(number, 1);
    EXPECT(s2ix_add_union(&handle, both, 2, (uint32_t)highest_label + 1, &number), S2IX_NO_LABEL);
    EXPECT(number, 0);
    EXPECT(s2ix_add_union(&handle, both, 1, (uint32_t)highest_label + 1, &number), S2IX_NO_LABEL);
    EXPECT(s2ix_add_union(&handle, both, 0, (uint32_t)highest_label + 1, &number), S2IX_NO_LABEL);
    EXPECT(s2ix_add_union(&handle, both, 0, 1, &number), S2IX_NO_CHANGE);
    EXPECT(s2ix_count(&handle, second, 1, &count), S2IX_DONE);
    EXPECT(count, 1);
    EXPECT(s2ix_count(&handle, leaf, 1, &count), S2IX_DONE);
    EXPECT(count, 0);
    EXPECT(s2ix_count(&handle, no_cell, 1, &count), S2IX_NO_CELL);
    EXPECT(s2ix_count(&handle, first, (uint32_t)highest_label + 1, &count), S2IX_NO_LABEL);
    EXPECT(s2ix_copies(&handle, &copies), S2IX_DONE);
    EXPECT(copies, 2);
    stepped(&handle);
    EXPECT(s2ix_clear(&handle), S2IX_DONE);
    EXPECT(s2ix_len(&handle, &number), S2IX_DONE);
    EXPECT(number, 0);
    EXPECT(s2ix_undo(&handle, &number), S2IX_NOTHING_TO_UNDO);
    EXPECT(s2ix_add(&handle, first, 1, 6, &number), S2IX_TOO_MANY_COPIES);
    s2ix_close(&handle);
}

static void added_at_once(void) {
    s2ix_handle handle = {0};
    size_t number;
    uint32_t count;
    s2ix_row rows[4] = {{second, 7, 1}, {first, 1, 2}, {leaf, 1, 0}, {first, 1, 1}};
    EXPECT(s2ix_open(&handle, 2, 5, 2), S2IX_DONE);
    EXPECT(s2ix_add_all(&handle, rows, 4, &number), S2IX_DONE);
    EXPECT(number, 2);
    EXPECT(s2ix_count(&handle, first, 1, &count), S2IX_DONE);
    EXPECT(count, 3);
    EXPECT(s2ix_add_all(&handle, rows, 4, &number), S2IX_TOO_MANY_COPIES);
    EXPECT(s2ix_add_all(&handle, rows + 2, 1, &number), S2IX_NO_CHANGE);
    EXPECT(s2ix_add_all(&handle, rows, 0, &number), S2IX_NO_CHANGE);
    EXPECT(number, 0);
    rows[2].count = 1;
    EXPECT(s2ix_add_all(&handle, rows + 2, 2, &number), S2IX_TOO_MANY_PAIRS);
    rows[1].label = (uint32_t)highest_label + 1;
    rows[2].cell = no_cell;
    EXPECT(s2ix_add_all(&handle, rows, 4, &number), S2IX_NO_LABEL);
    EXPECT(number, 1);
    EXPECT(s2ix_add_all(&handle, rows + 2, 1, &number), S2IX_NO_CELL);
    EXPECT(number, 0);
    EXPECT(s2ix_add_all(&handle, rows, 1, &number), S2IX_DONE);
    EXPECT(s2ix_add_all(&handle, rows, 0, &number), S2IX_JOURNAL_FULL);
    EXPECT(s2ix_undo(&handle, &number), S2IX_DONE);
    EXPECT(s2ix_undo(&handle, &number), S2IX_DONE);
    EXPECT(number, 2);
    EXPECT(s2ix_len(&handle, &number), S2IX_DONE);
    EXPECT(number, 0);
    s2ix_close(&handle);
}

/* Each edit that passes a limit, or would change nothing, is refused for that. */
static void limited(void) {
    s2ix_handle handle = {0};
    size_t number;
    uint64_t both[2] = {first, second};
    s2ix_row rows[2] = {{face, 7, 5}, {leaf, 7, 1}};
    EXPECT(s2ix_open(&handle, 3, 5, 9), S2IX_DONE);
    EXPECT(s2ix_add(&handle, first, 1, 5, &number), S2IX_DONE);
    EXPECT(s2ix_add(&handle, first, 2, 1, &number), S2IX_DONE);
    EXPECT(s2ix_add_union(&handle, both, 2, 1, &number), S2IX_TOO_MANY_COPIES);
    EXPECT(s2ix_add_union(&handle, both, 2, 3, &number), S2IX_TOO_MANY_PAIRS);
    EXPECT(s2ix_relabel(&handle, 1, 2, &number), S2IX_TOO_MANY_COPIES);
    EXPECT(s2ix_grow(&handle, 2, 1, &number), S2IX_TOO_MANY_PAIRS);
    EXPECT(s2ix_normalise_label(&handle, 2, &number), S2IX_NO_CHANGE);
    EXPECT(s2ix_add_all(&handle, rows, 2, &number), S2IX_TOO_MANY_PAIRS);
    EXPECT(s2ix_add(&handle, face, 3, 1, &number), S2IX_DONE);
    EXPECT(s2ix_add(&handle, face, 4, 1, &number), S2IX_TOO_MANY_PAIRS);
    EXPECT(s2ix_remove(&handle, face, 3, 1, &number), S2IX_DONE);
    EXPECT(s2ix_add(&handle, second, 3, 1, &number), S2IX_DONE);
    EXPECT(s2ix_revert(&handle, 4, &number), S2IX_TOO_MANY_PAIRS);
    EXPECT(s2ix_remove(&handle, first, 1, 5, &number), S2IX_DONE);
    EXPECT(s2ix_add(&handle, first, 1, 1, &number), S2IX_DONE);
    EXPECT(s2ix_revert(&handle, 6, &number), S2IX_TOO_MANY_COPIES);
    EXPECT(number, 0);
    s2ix_close(&handle);
}

static void edited_labels(void) {
    s2ix_handle handle = {0};
    size_t number;
    uint64_t both[2] = {first, second}, region[64];
    EXPECT(s2ix_open(&handle, 100, 5, 100), S2IX_DONE);
    EXPECT(s2ix_add_union(&handle, both, 2, 1, &number), S2IX_DONE);
    EXPECT(s2ix_drop_label(&handle, 2, &number), S2IX_NO_SUCH_LABEL);
    EXPECT(s2ix_drop_label(&handle, UINT32_MAX, &number), S2IX_NO_LABEL);
    EXPECT(s2ix_relabel(&handle, 2, 3, &number), S2IX_NO_SUCH_LABEL);
    EXPECT(s2ix_relabel(&handle, UINT32_MAX, 3, &number), S2IX_NO_LABEL);
    EXPECT(s2ix_relabel(&handle, 1, UINT32_MAX, &number), S2IX_NO_LABEL);
    EXPECT(s2ix_relabel(&handle, 1, 1, &number), S2IX_NO_CHANGE);
    EXPECT(s2ix_relabel(&handle, 1, 2, &number), S2IX_DONE);
    EXPECT(number, 4);
    EXPECT(s2ix_grow(&handle, 2, 31, &number), S2IX_TOO_FINE);
    EXPECT(s2ix_grow(&handle, 1, 1, &number), S2IX_NO_SUCH_LABEL);
    EXPECT(s2ix_grow(&handle, UINT32_MAX, 1, &number), S2IX_NO_LABEL);
    EXPECT(s2ix_grow(&handle, 2, 1, &number), S2IX_DONE);
    EXPECT(number > 0, true);
    EXPECT(s2ix_normalise_label(&handle, 1, &number), S2IX_NO_SUCH_LABEL);
    EXPECT(s2ix_normalise_label(&handle, UINT32_MAX, &number), S2IX_NO_LABEL);
    EXPECT(s2ix_add(&handle, leaf, 2, 1, &number), S2IX_DONE);
    EXPECT(s2ix_normalise_label(&handle, 2, &number), S2IX_DONE);
    EXPECT(s2ix_region(&handle, 2, region, 64, &number), S2IX_DONE);
    EXPECT(s2ix_drop_label(&handle, 2, &number), S2IX_DONE);
    EXPECT(s2ix_len(&handle, &number), S2IX_DONE);
    EXPECT(number, 0);
    EXPECT(s2ix_region(&handle, 2, region, 0, &number), S2IX_DONE);
    EXPECT(number, 0);
    s2ix_close(&handle);
}

static void asked_for_labels(s2ix_handle *handle) {
    size_t number;
    uint32_t labels[3] = {7, 7, 7};
    uint64_t region[3];
    EXPECT(s2ix_labels(handle, &face, 1, labels, 0, &number), S2IX_NO_ROOM);
    EXPECT(number == 3 && labels[0] == 7, true);
    EXPECT(s2ix_labels(handle, &face, 1, labels, 2, &number), S2IX_NO_ROOM);
    EXPECT(number == 3 && labels[0] == 3 && labels[1] == 5 && labels[2] == 7, true);
    EXPECT(s2ix_labels(handle, &face, 1, labels, 3, &number), S2IX_DONE);
    EXPECT(labels[0] == 3 && labels[1] == 5 && labels[2] == 9, true);
    EXPECT(s2ix_labels(handle, &face, 0, labels, 0, &number), S2IX_DONE);
    EXPECT(number, 0);
    EXPECT(s2ix_labels(handle, &no_cell, 1, labels, 3, &number), S2IX_NO_CELL);
    EXPECT(number, 0);

    EXPECT(s2ix_region(handle, 9, region, 0, &number), S2IX_NO_ROOM);
    EXPECT(number, 1);
    EXPECT(s2ix_region(handle, 9, region, 1, &number), S2IX_DONE);
    EXPECT(region[0], first);
    EXPECT(s2ix_region(handle, UINT32_MAX, region, 1, &number), S2IX_NO_LABEL);
}

static void asked(void) {
    s2ix_handle handle = {0};
    size_t number;
    s2ix_row rows[4];
    uint64_t both[2] = {second, first};
    EXPECT(s2ix_open(&handle, 10, 10, 10), S2IX_DONE);
    EXPECT(s2ix_add(&handle, face, 3, 2, &number), S2IX_DONE);
    EXPECT(s2ix_add(&handle, first, 9, 4, &number), S2IX_DONE);
    EXPECT(s2ix_add(&handle, first, 5, 1, &number), S2IX_DONE);

    memset(rows, 7, sizeof rows);
    EXPECT(s2ix_at(&handle, leaf, rows, 0, &number), S2IX_NO_ROOM);
    EXPECT(number, 3);
    EXPECT(rows[0].label, 0x07070707);
    EXPECT(s2ix_at(&handle, leaf, rows, 2, &number), S2IX_NO_ROOM);
    EXPECT(number, 3);
    EXPECT(rows[0].label == 5 && rows[1].label == 9 && rows[2].label == 0x07070707, true);
    EXPECT(s2ix_at(&handle, leaf, rows, 3, &number), S2IX_DONE);
    EXPECT(number, 3);
    EXPECT(rows[0].cell == first && rows[0].label == 5 && rows[0].count == 1, true);
    EXPECT(rows[1].cell == first && rows[1].label == 9 && rows[1].count == 4, true);
    EXPECT(rows[2].cell == face && rows[2].label == 3 && rows[2].count == 2, true);
    EXPECT(rows[3].label, 0x07070707);
    EXPECT(s2ix_at(&handle, first, rows, 3, &number), S2IX_NO_CELL);
    EXPECT(s2ix_at(&handle, no_cell, rows, 3, &number), S2IX_NO_CELL);
    EXPECT(number, 0);
    EXPECT(s2ix_at(&handle, 0x5000000000000001, rows, 0, &number), S2IX_DONE);

    memset(rows, 7, sizeof rows);
    EXPECT(s2ix_meet(&handle, both, 2, rows, 0, &number), S2IX_NO_ROOM);
    EXPECT(number, 3);
    EXPECT(rows[0].label, 0x07070707);
    EXPECT(s2ix_meet(&handle, both, 2, rows, 2, &number), S2IX_NO_ROOM);
    EXPECT(number, 3);
    EXPECT(rows[0].label == 5 && rows[1].label == 9 && rows[2].label == 0x07070707, true);
    EXPECT(s2ix_meet(&handle, both, 2, rows, 3, &number), S2IX_DONE);
    EXPECT(rows[2].label == 3 && rows[3].label == 0x07070707, true);
    EXPECT(s2ix_meet(&handle, &leaf, 1, rows, 2, &number), S2IX_NO_ROOM);
    EXPECT(number == 3 && rows[0].label == 5 && rows[1].label == 9, true);
    EXPECT(s2ix_meet(&handle, &leaf, 1, rows, 3, &number), S2IX_DONE);
    EXPECT(number == 3 && rows[0].cell == first && rows[2].label == 3 && rows[2].count == 2, true);
    EXPECT(s2ix_meet(&handle, both, 0, rows, 0, &number), S2IX_DONE);
    EXPECT(number, 0);
    both[1] = no_cell;
    EXPECT(s2ix_meet(&handle, both, 2, rows, 3, &number), S2IX_NO_CELL);
    EXPECT(number, 1);

    asked_for_labels(&handle);
    s2ix_close(&handle);
}

/* The pairs of a store, of one label and page by page. */
static void paged(void) {
    s2ix_handle handle = {0};
    size_t number;
    s2ix_row rows[4];
    EXPECT(s2ix_open(&handle, 10, 10, 10), S2IX_DONE);
    EXPECT(s2ix_pairs(&handle, 0, rows, 4, &number), S2IX_DONE);
    EXPECT(number, 0);
    EXPECT(s2ix_add(&handle, second, 3, 2, &number), S2IX_DONE);
    EXPECT(s2ix_add(&handle, first, 9, 4, &number), S2IX_DONE);
    EXPECT(s2ix_add(&handle, first, 3, 1, &number), S2IX_DONE);

    memset(rows, 7, sizeof rows);
    EXPECT(s2ix_pairs(&handle, 0, rows, 2, &number), S2IX_DONE);
    EXPECT(number, 2);
    EXPECT(rows[0].cell == first && rows[0].label == 3 && rows[0].count == 1, true);
    EXPECT(rows[1].cell == first && rows[1].label == 9 && rows[1].count == 4, true);
    EXPECT(rows[2].label, 0x07070707);
    EXPECT(s2ix_pairs(&handle, 2, rows, 2, &number), S2IX_DONE);
    EXPECT(number, 1);
    EXPECT(rows[0].cell == second && rows[0].label == 3 && rows[0].count == 2, true);
    EXPECT(rows[1].label, 9);
    EXPECT(s2ix_pairs(&handle, 3, rows, 2, &number), S2IX_DONE);
    EXPECT(number, 0);
    EXPECT(s2ix_pairs(&handle, SIZE_MAX, rows, 2, &number), S2IX_DONE);
    EXPECT(number, 0);
    EXPECT(s2ix_pairs(&handle, 0, rows, 0, &number), S2IX_DONE);
    EXPECT(number, 0);

    memset(rows, 7, sizeof rows);
    EXPECT(s2ix_of_label(&handle, 3, rows, 1, &number), S2IX_NO_ROOM);
    EXPECT(number, 2);
    EXPECT(rows[0].label, 0x07070707);
    EXPECT(s2ix_of_label(&handle, 3, rows, 2, &number), S2IX_DONE);
    EXPECT(number, 2);
    EXPECT(rows[0].cell == first && rows[0].count == 1, true);
    EXPECT(rows[1].cell == second && rows[1].count == 2, true);
    EXPECT(rows[2].label, 0x07070707);
    EXPECT(s2ix_of_label(&handle, 4, rows, 0, &number), S2IX_DONE);
    EXPECT(number, 0);
    EXPECT(s2ix_of_label(&handle, UINT32_MAX, rows, 4, &number), S2IX_NO_LABEL);
    EXPECT(number, 0);
    s2ix_close(&handle);
}

static void told(void) {
    uint8_t text[64];
    size_t number;
    memset(text, 7, sizeof text);
    EXPECT(s2ix_status_text(S2IX_DONE, text, 3, &number), S2IX_NO_ROOM);
    EXPECT(number, 4);
    EXPECT(text[0], 7);
    EXPECT(s2ix_status_text(S2IX_DONE, text, 4, &number), S2IX_DONE);
    EXPECT(memcmp(text, "done\7", 5), 0);
    EXPECT(s2ix_status_text(S2IX_TOO_MANY_PAIRS, text, sizeof text, &number), S2IX_DONE);
    EXPECT(number, 40);
    EXPECT(s2ix_status_text(10, text, sizeof text, &number), S2IX_DONE);
    EXPECT(memcmp(text, "no status", number), 0);
    EXPECT(s2ix_version(text, 2, &number), S2IX_NO_ROOM);
    EXPECT(number, strlen(S2IX_VERSION));
    EXPECT(s2ix_version(text, sizeof text, &number), S2IX_DONE);
    EXPECT(number, strlen(S2IX_VERSION));
    EXPECT(memcmp(text, S2IX_VERSION, number), 0);
}

static void copied(void) {
    s2ix_handle handle = {0}, copy = {0};
    size_t number;
    EXPECT(s2ix_open(&handle, 10, 10, 10), S2IX_DONE);
    EXPECT(s2ix_range_count(&handle, &number), S2IX_DONE);
    EXPECT(number, 1);
    EXPECT(s2ix_add(&handle, first, 3, 2, &number), S2IX_DONE);
    EXPECT(s2ix_range_count(&handle, &number), S2IX_DONE);
    EXPECT(number, 2);
    EXPECT(s2ix_open(&copy, 1, 1, 1), S2IX_DONE);
    EXPECT(s2ix_copy(&handle, &copy), S2IX_DONE);
    EXPECT(s2ix_undo(&copy, &number), S2IX_NOTHING_TO_UNDO);
    EXPECT(s2ix_add(&copy, second, 3, 2, &number), S2IX_DONE);
    EXPECT(s2ix_len(&copy, &number), S2IX_DONE);
    EXPECT(number, 2);
    EXPECT(s2ix_len(&handle, &number), S2IX_DONE);
    EXPECT(number, 1);
    s2ix_close(&handle);
    EXPECT(s2ix_undo(&copy, &number), S2IX_DONE);
    EXPECT(s2ix_len(&copy, &number), S2IX_DONE);
    EXPECT(number, 1);
    s2ix_close(&copy);
}

/* Carries a line out with some room: its status, its number and its answer are these, and nothing else of the buffer is written. */
static void carried_out(s2ix_handle *handle, const char *line, size_t room, uint32_t status, size_t wanted, const char *answer) {
    uint8_t text[64];
    size_t number = 7;
    memset(text, 7, sizeof text);
    EXPECT(s2ix_line(handle, (const uint8_t *)line, strlen(line), text, room, &number), status);
    EXPECT(number, wanted);
    EXPECT(memcmp(text, answer, strlen(answer)), 0);
    for (size_t place = strlen(answer); place < sizeof text; place++) EXPECT(text[place], 7);
}

/* What a line would do. */
static void kind_told(const char *line, uint8_t wanted) {
    uint8_t kind = 7;
    EXPECT(s2ix_line_kind((const uint8_t *)line, strlen(line), &kind), S2IX_DONE);
    EXPECT(kind, wanted);
}

static void kinds_of_lines(void) {
    static const char *const questions[] = {"at 1", "meet 1 3", "labels 1", "region 3", "common 1 2", "only 1 2", "ranges", "path 1", "neighbors 1",
                                            "face 1", "dump", "journal", "export"};
    static const char *const edits[] = {"add 1 3", "addunion 9 1 3", "remove 1 3 2", "drop 3", "relabel 3 4", "grow 3 2", "normal 3", "revert 1"};
    static const char *const nothing[] = {"", " ", "# undo", "#forget", "undo 1", "add 1", "fly", "undone", "Undo"};
    for (size_t k = 0; k < sizeof questions / sizeof *questions; k++) kind_told(questions[k], S2IX_LINE_QUESTION);
    for (size_t k = 0; k < sizeof edits / sizeof *edits; k++) kind_told(edits[k], S2IX_LINE_EDIT);
    for (size_t k = 0; k < sizeof nothing / sizeof *nothing; k++) kind_told(nothing[k], S2IX_LINE_NOTHING);
    kind_told("undo", S2IX_LINE_UNDO);
    kind_told("\tundo # back", S2IX_LINE_NOTHING);
    kind_told(" redo ", S2IX_LINE_REDO);
    kind_told("forget", S2IX_LINE_FORGET);
}

static void lines(void) {
    s2ix_handle handle = {0};
    size_t number;
    EXPECT(s2ix_open(&handle, 10, 10, 10), S2IX_DONE);
    carried_out(&handle, "add 1 3 2", 31, S2IX_NO_ROOM, 32, "");
    EXPECT(s2ix_done_count(&handle, &number), S2IX_DONE);
    EXPECT(number, 0);
    carried_out(&handle, "add 1 3 2", 32, S2IX_DONE, 5, "ok 1\n");
    carried_out(&handle, "undo", 31, S2IX_NO_ROOM, 32, "");
    EXPECT(s2ix_done_count(&handle, &number), S2IX_DONE);
    EXPECT(number, 1);
    carried_out(&handle, "redo", 31, S2IX_NO_ROOM, 32, "");
    carried_out(&handle, "meet 1", 0, S2IX_NO_ROOM, 12, "");
    carried_out(&handle, "region 3", 0, S2IX_NO_ROOM, 8, "");
    carried_out(&handle, "dump", 0, S2IX_NO_ROOM, 21, "");
    carried_out(&handle, "dump", 20, S2IX_NO_ROOM, 21, "");
    carried_out(&handle, "dump", 21, S2IX_DONE, 21, "s2ix 2\n1 3 2\nend 1 2\n");
    carried_out(&handle, "remove 1 4", 64, S2IX_DONE, 11, "no NotHeld\n");
    carried_out(&handle, "fly 1", 13, S2IX_NO_ROOM, 14, "");
    carried_out(&handle, "fly 1", 14, S2IX_DONE, 14, "no BadCommand\n");
    carried_out(&handle, "# add 1 3", 0, S2IX_DONE, 0, "");
    carried_out(&handle, "", 0, S2IX_DONE, 0, "");
    carried_out(&handle, "undo", 32, S2IX_DONE, 5, "ok 1\n");
    carried_out(&handle, "redo", 32, S2IX_DONE, 5, "ok 1\n");
    carried_out(&handle, "redo", 32, S2IX_DONE, 17, "no NothingToRedo\n");
    carried_out(&handle, "forget", 32, S2IX_DONE, 5, "ok 0\n");
    EXPECT(s2ix_done_count(&handle, &number), S2IX_DONE);
    EXPECT(number, 0);
    s2ix_close(&handle);
}

/* Further kinds of lines, with one byte too little and with exactly enough. */
static void further_lines(void) {
    s2ix_handle handle = {0};
    size_t number;
    EXPECT(s2ix_open(&handle, 10, 10, 10), S2IX_DONE);
    carried_out(&handle, "addunion 3 04 0c", 31, S2IX_NO_ROOM, 32, "");
    carried_out(&handle, "addunion 3 04 0c", 32, S2IX_DONE, 5, "ok 2\n");
    carried_out(&handle, "region 3", 11, S2IX_NO_ROOM, 12, "");
    carried_out(&handle, "region 3", 12, S2IX_DONE, 12, "04\n0c\nend 2\n");
    carried_out(&handle, "at 1", 10, S2IX_NO_ROOM, 11, "");
    carried_out(&handle, "at 1", 11, S2IX_DONE, 11, "no NotLeaf\n");
    carried_out(&handle, "at 0000000000000001", 12, S2IX_NO_ROOM, 13, "");
    carried_out(&handle, "at 0000000000000001", 13, S2IX_DONE, 13, "04:3:1\nend 1\n");
    carried_out(&handle, "path 0c", 3, S2IX_NO_ROOM, 4, "");
    carried_out(&handle, "path 0c", 4, S2IX_DONE, 4, "0/1\n");
    carried_out(&handle, "forget", 31, S2IX_NO_ROOM, 32, "");
    EXPECT(s2ix_done_count(&handle, &number), S2IX_DONE);
    EXPECT(number, 1);
    carried_out(&handle, "forget", 32, S2IX_DONE, 5, "ok 0\n");
    carried_out(&handle, "undo", 32, S2IX_DONE, 17, "no NothingToUndo\n");
    s2ix_close(&handle);
}

static void written_and_read(void) {
    static const char wanted[] = "s2ix 2\n1 3 2\nend 1 2\n";
    const size_t len = sizeof wanted - 1;
    s2ix_handle handle = {0}, other = {0};
    size_t number, line;
    uint8_t text[64];
    EXPECT(s2ix_open(&handle, 10, 10, 10), S2IX_DONE);
    EXPECT(s2ix_add(&handle, face, 3, 2, &number), S2IX_DONE);
    memset(text, 7, sizeof text);
    EXPECT(s2ix_dump(&handle, text, len - 1, &number), S2IX_NO_ROOM);
    EXPECT(number, len);
    EXPECT(text[0], 7);
    EXPECT(s2ix_dump(&handle, text, len, &number), S2IX_DONE);
    EXPECT(memcmp(text, wanted, len), 0);
    EXPECT(text[len], 7);
    EXPECT(s2ix_load(&other, text, len, 0, 10, 10, &line), S2IX_NO_LIMITS);
    EXPECT(s2ix_load(&other, text, len - 1, 10, 10, 10, &line), S2IX_NO_DUMP);
    EXPECT(line, 3);
    EXPECT(s2ix_load(&other, text, 0, 10, 10, 10, &line), S2IX_NO_DUMP);
    EXPECT(line, 1);
    EXPECT(other.is_open, false);
    EXPECT(s2ix_load(&other, text, len, 10, 10, 10, &line), S2IX_DONE);
    EXPECT(line, 0);
    EXPECT(s2ix_load(&other, text, len, 10, 1, 10, &line), S2IX_NO_DUMP);
    EXPECT(line, 2);
    EXPECT(s2ix_len(&other, &number), S2IX_DONE);
    EXPECT(number, 1);
    EXPECT(s2ix_undo(&other, &number), S2IX_NOTHING_TO_UNDO);
    s2ix_close(&handle);
    s2ix_close(&other);
}

/* The ranges of a store with one pair, whose cell is neither the first nor the last. */
static void found(void) {
    static const uint64_t start_of_all = 1, end_of_all = 0xc000000000000001, last_leaf = 0xbfffffffffffffff;
    s2ix_handle handle = {0};
    size_t number, place = 7;
    uint64_t start = 7, limit = 7;
    EXPECT(s2ix_find(&handle, leaf, &place, &start, &limit), S2IX_CLOSED);
    EXPECT(place == 0 && start == 0 && limit == 0, true);
    EXPECT(s2ix_open(&handle, 10, 10, 10), S2IX_DONE);
    EXPECT(s2ix_find(&handle, leaf, &place, &start, &limit), S2IX_DONE);
    EXPECT(place == 0 && start == start_of_all && limit == end_of_all, true);
    EXPECT(s2ix_add(&handle, second, 3, 2, &number), S2IX_DONE);
    EXPECT(s2ix_range_count(&handle, &number), S2IX_DONE);
    EXPECT(number, 3);
    EXPECT(s2ix_find(&handle, leaf, &place, &start, &limit), S2IX_DONE);
    EXPECT(place == 0 && start == start_of_all && limit == 0x0800000000000001, true);
    EXPECT(s2ix_find(&handle, limit, &place, &start, &limit), S2IX_DONE);
    EXPECT(place == 1 && start == 0x0800000000000001 && limit == 0x1000000000000001, true);
    EXPECT(s2ix_find(&handle, last_leaf, &place, &start, &limit), S2IX_DONE);
    EXPECT(place == 2 && start == 0x1000000000000001 && limit == end_of_all, true);
    EXPECT(s2ix_find(&handle, end_of_all, &place, &start, &limit), S2IX_NO_CELL);
    EXPECT(place == 0 && start == 0 && limit == 0, true);
    EXPECT(s2ix_find(&handle, second, &place, &start, &limit), S2IX_NO_CELL);
    s2ix_close(&handle);
}

static void exported(void) {
    static const char wanted[] = "{\"pairs\":[[\"04\",9,2]],\"version\":1}";
    const size_t len = sizeof wanted - 1;
    s2ix_handle handle = {0};
    size_t number = 7;
    uint8_t text[64];
    EXPECT(s2ix_export(&handle, text, sizeof text, &number), S2IX_CLOSED);
    EXPECT(number, 0);
    EXPECT(s2ix_open(&handle, 10, 10, 10), S2IX_DONE);
    EXPECT(s2ix_add(&handle, first, 9, 2, &number), S2IX_DONE);
    memset(text, 7, sizeof text);
    EXPECT(s2ix_export(&handle, text, len - 1, &number), S2IX_NO_ROOM);
    EXPECT(number, len);
    EXPECT(text[0], 7);
    EXPECT(s2ix_export(&handle, text, len, &number), S2IX_DONE);
    EXPECT(memcmp(text, wanted, len), 0);
    EXPECT(text[len], 7);
    s2ix_close(&handle);
}

int main(void) {
    check_cells();
    check_ranges();
    check_lists();
    check_each();
    check_steps();
    check_histories();
    check_threads();
    check_readers();
    check_layout();
    check_freed();
    refused_while_closed();
    untold_while_closed();
    opened();
    edited();
    added_at_once();
    limited();
    edited_labels();
    asked();
    paged();
    told();
    copied();
    lines();
    kinds_of_lines();
    further_lines();
    written_and_read();
    exported();
    found();
    EXPECT(blocks_held(), 0);
    if (fault_count() == 0)
        printf("c library: well\n");
    return fault_count() != 0;
}
