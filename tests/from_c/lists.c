/* Calls the exports that tell what one store holds beside another, which labels it holds, and its journal from a change on, with their
   refusals, and says at which lines an answer was wrong. */
#include "checks.h"
#include "s2ix.h"

#include <stdint.h>
#include <string.h>

/* Two neighbours on face 0, and the face. */
static const uint64_t first = 0x0400000000000000, second = 0x0c00000000000000, face = 0x1000000000000000;
static const uint32_t highest_label = 2147483647;

static bool is_entry(s2ix_entry entry, uint64_t cell, uint32_t label, uint32_t before, uint32_t after) {
    return entry.cell == cell && entry.label == label && entry.before == before && entry.after == after;
}

static bool is_label(s2ix_held_label held, uint32_t label, uint32_t pairs, uint64_t copies) {
    return held.label == label && held.pairs == pairs && held.copies == copies;
}

static void refused_while_closed(void) {
    s2ix_handle handle = {0}, open = {0};
    size_t number = 7;
    uint8_t byte = 9;
    s2ix_held_label label = {9, 9, 9};
    s2ix_entry entry = {9, 9, 9, 9};
    EXPECT(s2ix_journal_from(&handle, 0, &byte, 1, &number), S2IX_CLOSED);
    EXPECT(number == 0 && byte == 9, true);
    number = 7;
    EXPECT(s2ix_held_labels(&handle, &label, 1, &number), S2IX_CLOSED);
    EXPECT(number == 0 && is_label(label, 9, 9, 9), true);
    EXPECT(s2ix_open(&open, 10, 10, 10), S2IX_DONE);
    EXPECT(s2ix_add(&open, first, 9, 2, &number), S2IX_DONE);
    number = 7;
    EXPECT(s2ix_difference(&handle, &open, &entry, 1, &number), S2IX_CLOSED);
    EXPECT(number == 0 && is_entry(entry, 9, 9, 9, 9) && open.is_open && !handle.is_open, true);
    number = 7;
    EXPECT(s2ix_difference(&open, &handle, &entry, 1, &number), S2IX_CLOSED);
    EXPECT(number == 0 && is_entry(entry, 9, 9, 9, 9) && open.is_open && !handle.is_open, true);
    EXPECT(s2ix_len(&open, &number), S2IX_DONE);
    EXPECT(number, 1);
    s2ix_close(&open);
    EXPECT(s2ix_difference(&open, &handle, &entry, 1, &number), S2IX_CLOSED);
    EXPECT(number, 0);
}

/* Puts the journal from a change on, with exactly enough room, and looks that it is a text. */
static void put_from(s2ix_handle *handle, uint32_t change, const char *wanted) {
    const size_t len = strlen(wanted);
    uint8_t text[128];
    size_t number = 7;
    memset(text, 9, sizeof text);
    EXPECT(s2ix_journal_from(handle, change, text, len - 1, &number), S2IX_NO_ROOM);
    EXPECT(number == len && text[0] == 9, true);
    EXPECT(s2ix_journal_from(handle, change, text, len, &number), S2IX_DONE);
    EXPECT(number == len && memcmp(text, wanted, len) == 0 && text[len] == 9, true);
}

/* Three changes, of which the last is undone: two can be undone. */
static void journalled(void) {
    s2ix_handle handle = {0};
    size_t number = 7;
    uint8_t text[128] = {9};
    EXPECT(s2ix_open(&handle, 10, 10, 10), S2IX_DONE);
    put_from(&handle, 1, "s2ix-journal 2\nend 0\n");
    EXPECT(s2ix_journal_from(&handle, 2, text, sizeof text, &number), S2IX_NO_SUCH_CHANGE);
    EXPECT(s2ix_add(&handle, first, 9, 2, &number), S2IX_DONE);
    EXPECT(s2ix_remove(&handle, first, 9, 1, &number), S2IX_DONE);
    EXPECT(s2ix_add(&handle, face, 3, 1, &number), S2IX_DONE);
    EXPECT(s2ix_undo(&handle, &number), S2IX_DONE);
    put_from(&handle, 1, "s2ix-journal 2\nchange 1\n04 9 0 2\nchange 1\n04 9 2 1\nend 2\n");
    put_from(&handle, 2, "s2ix-journal 2\nchange 1\n04 9 2 1\nend 1\n");
    put_from(&handle, 3, "s2ix-journal 2\nend 0\n");
    EXPECT(s2ix_journal_from(&handle, 0, text, sizeof text, &number), S2IX_NO_SUCH_CHANGE);
    EXPECT(number, 0);
    EXPECT(s2ix_journal_from(&handle, 4, text, sizeof text, &number), S2IX_NO_SUCH_CHANGE);
    EXPECT(s2ix_journal_from(&handle, UINT32_MAX, text, sizeof text, &number), S2IX_NO_SUCH_CHANGE);
    EXPECT(number == 0 && text[0] == 9, true);
    s2ix_close(&handle);
}

/* A store follows another by the journal of what it lacks. */
static void followed(void) {
    s2ix_handle handle = {0}, other = {0};
    size_t number, place, entry;
    uint8_t text[128];
    s2ix_entry entries[1];
    EXPECT(s2ix_open(&handle, 10, 10, 10), S2IX_DONE);
    EXPECT(s2ix_add(&handle, first, 9, 2, &number), S2IX_DONE);
    EXPECT(s2ix_copy(&handle, &other), S2IX_DONE);
    EXPECT(s2ix_add(&handle, second, 9, 1, &number), S2IX_DONE);
    EXPECT(s2ix_journal_from(&handle, 2, text, sizeof text, &number), S2IX_DONE);
    EXPECT(s2ix_apply(&other, text, number, &number, &place, &entry), S2IX_DONE);
    EXPECT(s2ix_difference(&handle, &other, entries, 0, &number), S2IX_DONE);
    EXPECT(number, 0);
    s2ix_close(&handle);
    s2ix_close(&other);
}

/* The labels of two pairs, of one and of none. */
static void labelled(void) {
    s2ix_handle handle = {0};
    size_t number = 7;
    s2ix_held_label labels[3] = {{9, 9, 9}, {9, 9, 9}, {9, 9, 9}};
    EXPECT(s2ix_open(&handle, 10, UINT32_MAX, 10), S2IX_DONE);
    EXPECT(s2ix_held_labels(&handle, labels, 0, &number), S2IX_DONE);
    EXPECT(number, 0);
    EXPECT(s2ix_add(&handle, second, highest_label, 1, &number), S2IX_DONE);
    EXPECT(s2ix_add(&handle, first, 4, UINT32_MAX, &number), S2IX_DONE);
    EXPECT(s2ix_add(&handle, face, 4, UINT32_MAX, &number), S2IX_DONE);
    EXPECT(s2ix_held_labels(&handle, labels, 1, &number), S2IX_NO_ROOM);
    EXPECT(number == 2 && is_label(labels[0], 9, 9, 9), true);
    EXPECT(s2ix_held_labels(&handle, labels, 2, &number), S2IX_DONE);
    EXPECT(number == 2 && is_label(labels[0], 4, 2, 2 * (uint64_t)UINT32_MAX), true);
    EXPECT(is_label(labels[1], highest_label, 1, 1) && is_label(labels[2], 9, 9, 9), true);
    EXPECT(s2ix_drop_label(&handle, 4, &number), S2IX_DONE);
    EXPECT(s2ix_held_labels(&handle, labels, 3, &number), S2IX_DONE);
    EXPECT(number == 1 && is_label(labels[0], highest_label, 1, 1), true);
    s2ix_close(&handle);
}

/* A pair that only one store holds, and one with other counts. */
static void compared(void) {
    s2ix_handle before = {0}, after = {0};
    size_t number;
    s2ix_entry entries[4] = {{9, 9, 9, 9}, {9, 9, 9, 9}, {9, 9, 9, 9}, {9, 9, 9, 9}};
    EXPECT(s2ix_open(&before, 10, 10, 10), S2IX_DONE);
    EXPECT(s2ix_add(&before, first, 4, 1, &number), S2IX_DONE);
    EXPECT(s2ix_add(&before, second, 4, 2, &number), S2IX_DONE);
    EXPECT(s2ix_add(&before, face, 4, 3, &number), S2IX_DONE);
    EXPECT(s2ix_open(&after, 20, 20, 20), S2IX_DONE);
    EXPECT(s2ix_add(&after, face, 4, 13, &number), S2IX_DONE);
    EXPECT(s2ix_add(&after, second, 4, 2, &number), S2IX_DONE);
    EXPECT(s2ix_add(&after, first, 5, 1, &number), S2IX_DONE);
    EXPECT(s2ix_difference(&before, &after, entries, 2, &number), S2IX_NO_ROOM);
    EXPECT(number == 3 && is_entry(entries[0], 9, 9, 9, 9), true);
    EXPECT(s2ix_difference(&before, &after, entries, 3, &number), S2IX_DONE);
    EXPECT(number == 3 && is_entry(entries[0], first, 4, 1, 0) && is_entry(entries[1], first, 5, 0, 1), true);
    EXPECT(is_entry(entries[2], face, 4, 3, 13) && is_entry(entries[3], 9, 9, 9, 9), true);
    EXPECT(s2ix_difference(&after, &before, entries, 4, &number), S2IX_DONE);
    EXPECT(number == 3 && is_entry(entries[0], first, 4, 0, 1) && is_entry(entries[2], face, 4, 13, 3), true);
    EXPECT(s2ix_done_count(&before, &number), S2IX_DONE);
    EXPECT(number, 3);
    s2ix_close(&before);
    EXPECT(s2ix_done_count(&after, &number), S2IX_DONE);
    EXPECT(number, 3);
    s2ix_close(&after);
}

void check_lists(void) {
    refused_while_closed();
    journalled();
    followed();
    labelled();
    compared();
}
