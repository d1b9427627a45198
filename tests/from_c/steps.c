/* Calls the exports that take the steps of many rows or entries at once, with their refusals, and says at which lines an answer was wrong. */
#include "checks.h"
#include "s2ix.h"

#include <stdint.h>

/* Two neighbours on face 0, the face, a leaf below the first, and numbers that are no cell's and no label's. */
static const uint64_t first = 0x0400000000000000, second = 0x0c00000000000000, face = 0x1000000000000000, leaf = 0x0400000000000001;
static const uint64_t no_cell = 6;
static const uint32_t highest_label = 2147483647, no_label = 2147483648;

/* Rows that are removed as one change; of those that are refused the first is told. */
static void removed_at_once(void) {
    s2ix_handle handle = {0};
    size_t number = 7;
    uint32_t count;
    s2ix_row rows[4] = {{second, 7, 1}, {first, 1, 2}, {leaf, 1, 0}, {first, 1, 1}};
    EXPECT(s2ix_remove_all(&handle, rows, 4, &number), S2IX_CLOSED);
    EXPECT(number, 0);
    rows[1].label = no_label;
    EXPECT(s2ix_remove_all(&handle, rows, 4, &number), S2IX_NO_LABEL);
    EXPECT(number, 1);
    rows[1].label = 1;
    EXPECT(s2ix_open(&handle, 2, 5, 3), S2IX_DONE);
    EXPECT(s2ix_remove_all(&handle, rows, 0, &number), S2IX_NO_CHANGE);
    EXPECT(s2ix_remove_all(&handle, rows + 2, 1, &number), S2IX_NO_CHANGE);
    EXPECT(number, 0);
    EXPECT(s2ix_add_all(&handle, rows, 4, &number), S2IX_DONE);
    EXPECT(s2ix_remove_all(&handle, rows, 4, &number), S2IX_DONE);
    EXPECT(number, 2);
    EXPECT(s2ix_len(&handle, &number), S2IX_DONE);
    EXPECT(number, 0);
    EXPECT(s2ix_undo(&handle, &number), S2IX_DONE);
    EXPECT(number, 2);
    rows[0].count = 0;
    EXPECT(s2ix_remove_all(&handle, rows, 2, &number), S2IX_DONE);
    EXPECT(number, 1);
    EXPECT(s2ix_count(&handle, first, 1, &count), S2IX_DONE);
    EXPECT(count, 1);
    /* (the rows before the last leave none of the pair) */
    rows[1].count = 1;
    EXPECT(s2ix_remove_all(&handle, rows, 4, &number), S2IX_NOT_HELD);
    EXPECT(number, 3);
    EXPECT(s2ix_remove_all(&handle, rows + 3, 1, &number), S2IX_DONE);
    EXPECT(s2ix_remove_all(&handle, rows + 3, 1, &number), S2IX_JOURNAL_FULL);
    EXPECT(number, 0);
    rows[3].cell = no_cell;
    rows[2].label = no_label;
    EXPECT(s2ix_remove_all(&handle, rows, 4, &number), S2IX_NO_LABEL);
    EXPECT(number, 2);
    EXPECT(s2ix_remove_all(&handle, rows + 3, 1, &number), S2IX_NO_CELL);
    EXPECT(number, 0);
    s2ix_close(&handle);
}

/* What is wrong with a list of entries, whether the handle is closed or open: a wrong number, then the order, then equal counts. */
static void faulted(s2ix_handle *handle) {
    size_t number = 7;
    s2ix_entry entries[4] = {{first, 9, 0, 2}, {first, 9, 1, 1}, {second, no_label, 0, 1}, {no_cell, 1, 0, 1}};
    EXPECT(s2ix_record(handle, entries, 4, &number), S2IX_NO_LABEL);
    EXPECT(number, 2);
    entries[2].label = 3;
    EXPECT(s2ix_record(handle, entries, 4, &number), S2IX_NO_CELL);
    EXPECT(number, 3);
    entries[3] = (s2ix_entry){second, 2, 0, 1};
    EXPECT(s2ix_record(handle, entries, 4, &number), S2IX_UNSORTED);
    EXPECT(number, 1);
    entries[1].label = 10;
    EXPECT(s2ix_record(handle, entries, 4, &number), S2IX_UNSORTED);
    EXPECT(number, 3);
    entries[3].label = 4;
    EXPECT(s2ix_record(handle, entries, 4, &number), S2IX_NO_DIFFERENCE);
    EXPECT(number, 1);
}

/* Changes that are given entry by entry. */
static void recorded(void) {
    s2ix_handle handle = {0};
    size_t number = 7;
    uint32_t count;
    s2ix_entry entries[3] = {{first, 9, 0, 2}, {second, 3, 0, 1}, {second, highest_label, 0, 3}}, found[3];
    faulted(&handle);
    EXPECT(s2ix_record(&handle, entries, 3, &number), S2IX_CLOSED);
    EXPECT(number, 0);
    EXPECT(s2ix_record(&handle, entries, 0, &number), S2IX_CLOSED);
    EXPECT(s2ix_open(&handle, 3, 3, 3), S2IX_DONE);
    faulted(&handle);
    EXPECT(s2ix_record(&handle, entries, 0, &number), S2IX_NO_CHANGE);
    EXPECT(number, 0);
    EXPECT(s2ix_record(&handle, entries, 3, &number), S2IX_DONE);
    EXPECT(number, 3);
    EXPECT(s2ix_change(&handle, 1, found, 3, &number), S2IX_DONE);
    for (size_t k = 0; k < 3; k++)
        EXPECT(found[k].cell == entries[k].cell && found[k].label == entries[k].label && found[k].before == entries[k].before
                   && found[k].after == entries[k].after, true);
    EXPECT(s2ix_record(&handle, entries, 3, &number), S2IX_MISMATCH);
    EXPECT(number, 0);
    entries[0].before = 2;
    entries[0].after = 0;
    entries[1].before = 1;
    entries[1].after = 4;
    EXPECT(s2ix_record(&handle, entries, 3, &number), S2IX_MISMATCH);
    EXPECT(number, 2);
    EXPECT(s2ix_record(&handle, entries, 2, &number), S2IX_TOO_MANY_COPIES);
    EXPECT(number, 0);
    entries[1] = (s2ix_entry){face, 3, 0, 1};
    EXPECT(s2ix_record(&handle, entries + 1, 1, &number), S2IX_TOO_MANY_PAIRS);
    EXPECT(number, 0);
    EXPECT(s2ix_record(&handle, entries, 2, &number), S2IX_DONE);
    EXPECT(number, 2);
    EXPECT(s2ix_count(&handle, first, 9, &count), S2IX_DONE);
    EXPECT(count, 0);
    EXPECT(s2ix_remove(&handle, face, 3, 1, &number), S2IX_DONE);
    EXPECT(s2ix_record(&handle, entries, 2, &number), S2IX_JOURNAL_FULL);
    EXPECT(s2ix_record(&handle, entries, 0, &number), S2IX_JOURNAL_FULL);
    EXPECT(number, 0);
    faulted(&handle);
    EXPECT(s2ix_undo(&handle, &number), S2IX_DONE);
    EXPECT(s2ix_undo(&handle, &number), S2IX_DONE);
    EXPECT(number, 2);
    EXPECT(s2ix_record(&handle, entries, 2, &number), S2IX_DONE);
    EXPECT(s2ix_undone_count(&handle, &number), S2IX_DONE);
    EXPECT(number, 0);
    s2ix_close(&handle);
}

void check_steps(void) {
    removed_at_once();
    recorded();
}
