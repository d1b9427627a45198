/* Calls the exports that read, replay, resume, apply, join and write changes, with their refusals, and says at which lines an answer was
   wrong. */
#include "checks.h"
#include "s2ix.h"

#include <stdint.h>
#include <string.h>

/* Two neighbours on face 0, and the face. */
static const uint64_t first = 0x0400000000000000, second = 0x0c00000000000000, face = 0x1000000000000000;

/* The bytes of a text and how many they are. */
#define TEXT(text) (const uint8_t *)(text), sizeof(text) - 1

/* The changes of a store, entry by entry. */
static void changed(void) {
    s2ix_handle handle = {0};
    size_t number = 7;
    uint64_t both[2] = {second, first};
    s2ix_entry entries[3] = {{7, 7, 7, 7}, {7, 7, 7, 7}, {7, 7, 7, 7}};
    EXPECT(s2ix_change(&handle, 1, entries, 3, &number), S2IX_CLOSED);
    EXPECT(number, 0);
    EXPECT(s2ix_open(&handle, 10, 10, 10), S2IX_DONE);
    EXPECT(s2ix_change(&handle, 1, entries, 3, &number), S2IX_NO_SUCH_CHANGE);
    EXPECT(s2ix_add(&handle, first, 9, 2, &number), S2IX_DONE);
    EXPECT(s2ix_add_union(&handle, both, 2, 9, &number), S2IX_DONE);
    EXPECT(s2ix_change(&handle, 0, entries, 3, &number), S2IX_NO_SUCH_CHANGE);
    EXPECT(s2ix_change(&handle, 3, entries, 3, &number), S2IX_NO_SUCH_CHANGE);
    EXPECT(s2ix_change(&handle, UINT32_MAX, entries, 3, &number), S2IX_NO_SUCH_CHANGE);
    EXPECT(number, 0);
    EXPECT(s2ix_change(&handle, 2, entries, 1, &number), S2IX_NO_ROOM);
    EXPECT(number, 2);
    EXPECT(entries[0].cell + entries[0].label + entries[0].before + entries[0].after, 28);
    EXPECT(s2ix_change(&handle, 2, entries, 2, &number), S2IX_DONE);
    EXPECT(number, 2);
    EXPECT(entries[0].cell == first && entries[0].label == 9 && entries[0].before == 2 && entries[0].after == 3, true);
    EXPECT(entries[1].cell == second && entries[1].label == 9 && entries[1].before == 0 && entries[1].after == 1, true);
    EXPECT(entries[2].cell, 7);
    EXPECT(s2ix_change(&handle, 1, entries, 1, &number), S2IX_DONE);
    EXPECT(entries[0].before == 0 && entries[0].after == 2, true);
    EXPECT(s2ix_undo(&handle, &number), S2IX_DONE);
    EXPECT(s2ix_change(&handle, 2, entries, 3, &number), S2IX_NO_SUCH_CHANGE);
    s2ix_close(&handle);
}

static void replayed(void) {
#define DUMP "s2ix 2\n04 9 2\nend 1 2\n"
#define AFTER "s2ix 2\n04 9 3\n1 3 1\nend 2 4\n"
#define JOURNAL "s2ix-journal 2\nchange 1\n04 9 2 3\nchange 1\n1 3 0 1\nend 2\n"
    s2ix_handle handle = {0};
    size_t number, place = 7, entry = 7;
    uint8_t text[64];
    EXPECT(s2ix_replay(&handle, TEXT(DUMP), TEXT(JOURNAL), 0, 10, 10, &place, &entry), S2IX_NO_LIMITS);
    EXPECT(place + entry, 0);
    EXPECT(handle.is_open, false);
    EXPECT(s2ix_replay(&handle, TEXT(DUMP), TEXT(JOURNAL), 10, 10, 10, &place, &entry), S2IX_DONE);
    EXPECT(place + entry, 0);
    EXPECT(s2ix_dump(&handle, text, sizeof text, &number), S2IX_DONE);
    EXPECT(number == sizeof AFTER - 1 && memcmp(text, AFTER, number) == 0, true);
    EXPECT(s2ix_undo(&handle, &number), S2IX_NOTHING_TO_UNDO);
    EXPECT(s2ix_rewind(&handle, TEXT(DUMP), TEXT("s2ix-journal 2\n"), 10, 10, 10, &place, &entry), S2IX_NO_JOURNAL);
    EXPECT(place == 2 && entry == 0, true);
    EXPECT(s2ix_rewind(&handle, TEXT("s2ix 2\n"), TEXT(""), 10, 10, 10, &place, &entry), S2IX_NO_DUMP);
    EXPECT(place == 2 && entry == 0, true);
    EXPECT(s2ix_replay(&handle, TEXT(AFTER), TEXT(JOURNAL), 10, 10, 10, &place, &entry), S2IX_MISMATCH);
    EXPECT(place == 1 && entry == 1, true);
    EXPECT(s2ix_rewind(&handle, TEXT(DUMP), TEXT(JOURNAL), 10, 10, 10, &place, &entry), S2IX_MISMATCH);
    EXPECT(place == 2 && entry == 1, true);
    EXPECT(s2ix_replay(&handle, TEXT(DUMP), TEXT(JOURNAL), 1, 10, 10, &place, &entry), S2IX_TOO_MANY_PAIRS);
    EXPECT(place == 2 && entry == 0, true);
    EXPECT(s2ix_dump(&handle, text, sizeof text, &number), S2IX_DONE);
    EXPECT(number == sizeof AFTER - 1 && memcmp(text, AFTER, number) == 0, true);
    EXPECT(s2ix_rewind(&handle, TEXT(AFTER), TEXT(JOURNAL), 10, 10, 10, &place, &entry), S2IX_DONE);
    EXPECT(s2ix_dump(&handle, text, sizeof text, &number), S2IX_DONE);
    EXPECT(number == sizeof DUMP - 1 && memcmp(text, DUMP, number) == 0, true);
    s2ix_close(&handle);
#undef DUMP
#undef AFTER
#undef JOURNAL
}

static void resumed(void) {
#define DUMP "s2ix 2\n04 9 3\n1 3 1\nend 2 4\n"
#define JOURNAL "s2ix-journal 2\nchange 1\n04 9 2 3\nchange 1\n1 3 0 1\nend 2\n"
    s2ix_handle handle = {0};
    size_t number, place = 7, entry = 7;
    uint8_t text[80];
    uint32_t count;
    EXPECT(s2ix_resume(&handle, TEXT(DUMP), TEXT(JOURNAL), 10, 10, 0, &place, &entry), S2IX_NO_LIMITS);
    EXPECT(place + entry, 0);
    EXPECT(handle.is_open, false);
    EXPECT(s2ix_resume(&handle, TEXT(DUMP), TEXT(JOURNAL), 10, 10, 2, &place, &entry), S2IX_DONE);
    EXPECT(place + entry, 0);
    EXPECT(s2ix_dump(&handle, text, sizeof text, &number), S2IX_DONE);
    EXPECT(number == sizeof DUMP - 1 && memcmp(text, DUMP, number) == 0, true);
    EXPECT(s2ix_journal(&handle, text, sizeof text, &number), S2IX_DONE);
    EXPECT(number == sizeof JOURNAL - 1 && memcmp(text, JOURNAL, number) == 0, true);
    EXPECT(s2ix_add(&handle, first, 9, 1, &number), S2IX_JOURNAL_FULL);
    EXPECT(s2ix_undo(&handle, &number), S2IX_DONE);
    EXPECT(s2ix_undo(&handle, &number), S2IX_DONE);
    EXPECT(s2ix_undo(&handle, &number), S2IX_NOTHING_TO_UNDO);
    EXPECT(s2ix_count(&handle, first, 9, &count), S2IX_DONE);
    EXPECT(count, 2);
    /* (a journal that is full again) */
    EXPECT(s2ix_redo(&handle, &number), S2IX_DONE);
    EXPECT(s2ix_redo(&handle, &number), S2IX_DONE);
    EXPECT(s2ix_add(&handle, first, 9, 1, &number), S2IX_JOURNAL_FULL);
    EXPECT(s2ix_undo(&handle, &number), S2IX_DONE);
    EXPECT(s2ix_undo(&handle, &number), S2IX_DONE);
    EXPECT(s2ix_resume(&handle, TEXT("s2ix 2\n"), TEXT(""), 10, 10, 10, &place, &entry), S2IX_NO_DUMP);
    EXPECT(place == 2 && entry == 0, true);
    EXPECT(s2ix_resume(&handle, TEXT(DUMP), TEXT(DUMP), 10, 10, 10, &place, &entry), S2IX_NO_JOURNAL);
    EXPECT(place == 1 && entry == 0, true);
    EXPECT(s2ix_resume(&handle, TEXT(DUMP), TEXT(JOURNAL), 10, 10, 1, &place, &entry), S2IX_NO_JOURNAL);
    EXPECT(place == 4 && entry == 0, true);
    /* (the last change is taken back first, and the first one has another count after it) */
    EXPECT(s2ix_resume(&handle, TEXT(DUMP), TEXT("s2ix-journal 2\nchange 1\n04 9 1 2\nchange 1\n1 3 0 1\nend 2\n"), 10, 10, 10, &place, &entry),
           S2IX_MISMATCH);
    EXPECT(place == 1 && entry == 1, true);
    EXPECT(s2ix_resume(&handle, TEXT(DUMP), TEXT("s2ix-journal 2\nchange 1\n0c 7 1 0\nend 1\n"), 2, 10, 10, &place, &entry), S2IX_TOO_MANY_PAIRS);
    EXPECT(place == 1 && entry == 0, true);
    EXPECT(s2ix_undone_count(&handle, &number), S2IX_DONE);
    EXPECT(number, 2);
    s2ix_close(&handle);
#undef DUMP
#undef JOURNAL
}

/* Changes that would make more pairs than the limit, as the first that is made and as a later one. */
static void too_many_pairs(void) {
#define DUMP "s2ix 2\n04 9 3\n1 3 1\nend 2 4\n"
#define GONE "s2ix-journal 2\nchange 1\n0c 7 1 0\nend 1\n"
#define GONE_BEFORE "s2ix-journal 2\nchange 1\n0c 7 1 0\nchange 1\n04 9 2 3\nend 2\n"
#define ADDED "s2ix-journal 2\nchange 1\n0c 7 0 1\nend 1\n"
#define ADDED_AFTER "s2ix-journal 2\nchange 1\n04 9 3 2\nchange 1\n0c 7 0 1\nend 2\n"
    s2ix_handle handle = {0};
    size_t place = 7, entry = 7;
    EXPECT(s2ix_rewind(&handle, TEXT(DUMP), TEXT(GONE), 2, 10, 10, &place, &entry), S2IX_TOO_MANY_PAIRS);
    EXPECT(place == 1 && entry == 0, true);
    EXPECT(s2ix_rewind(&handle, TEXT(DUMP), TEXT(GONE_BEFORE), 2, 10, 10, &place, &entry), S2IX_TOO_MANY_PAIRS);
    EXPECT(place == 1 && entry == 0, true);
    EXPECT(s2ix_resume(&handle, TEXT(DUMP), TEXT(GONE_BEFORE), 2, 10, 10, &place, &entry), S2IX_TOO_MANY_PAIRS);
    EXPECT(place == 1 && entry == 0, true);
    EXPECT(s2ix_replay(&handle, TEXT(DUMP), TEXT(ADDED), 2, 10, 10, &place, &entry), S2IX_TOO_MANY_PAIRS);
    EXPECT(place == 1 && entry == 0, true);
    EXPECT(s2ix_replay(&handle, TEXT(DUMP), TEXT(ADDED_AFTER), 2, 10, 10, &place, &entry), S2IX_TOO_MANY_PAIRS);
    EXPECT(place == 2 && entry == 0, true);
    EXPECT(handle.is_open, false);
    EXPECT(s2ix_rewind(&handle, TEXT(DUMP), TEXT(GONE_BEFORE), 3, 10, 10, &place, &entry), S2IX_DONE);
    EXPECT(place + entry, 0);
    s2ix_close(&handle);
#undef DUMP
#undef GONE
#undef GONE_BEFORE
#undef ADDED
#undef ADDED_AFTER
}

static void applied(void) {
#define JOURNAL "s2ix-journal 2\nchange 1\n04 9 2 3\nchange 2\n04 9 3 2\n1 3 0 1\nend 2\n"
    s2ix_handle handle = {0};
    size_t number = 7, place = 7, entry = 7;
    uint32_t count;
    EXPECT(s2ix_apply(&handle, TEXT(""), &number, &place, &entry), S2IX_CLOSED);
    EXPECT(number + place + entry, 0);
    EXPECT(s2ix_open(&handle, 2, 3, 3), S2IX_DONE);
    EXPECT(s2ix_apply(&handle, TEXT(JOURNAL), &number, &place, &entry), S2IX_MISMATCH);
    EXPECT(number == 0 && place == 1 && entry == 1, true);
    EXPECT(s2ix_add(&handle, first, 9, 2, &number), S2IX_DONE);
    EXPECT(s2ix_add(&handle, first, 9, 1, &number), S2IX_DONE);
    EXPECT(s2ix_undo(&handle, &number), S2IX_DONE);
    EXPECT(s2ix_apply(&handle, TEXT("s2ix-journal 2\nend 0\n"), &number, &place, &entry), S2IX_DONE);
    EXPECT(number, 0);
    EXPECT(s2ix_undone_count(&handle, &number), S2IX_DONE);
    EXPECT(number, 1);
    EXPECT(s2ix_apply(&handle, TEXT("s2ix-journal 2\nchange 1\n04 9 2 4\nend 1\n"), &number, &place, &entry), S2IX_NO_JOURNAL);
    EXPECT(number == 0 && place == 3 && entry == 0, true);
    EXPECT(s2ix_apply(&handle, TEXT("s2ix-journal 2\nchange 2\n0c 8 0 1\n0c 9 0 1\nend 1\n"), &number, &place, &entry), S2IX_TOO_MANY_PAIRS);
    EXPECT(number == 0 && place == 1 && entry == 0, true);
    EXPECT(s2ix_apply(&handle, TEXT(JOURNAL), &number, &place, &entry), S2IX_DONE);
    EXPECT(number == 1 && place == 0 && entry == 0, true);
    EXPECT(s2ix_done_count(&handle, &number), S2IX_DONE);
    EXPECT(number, 3);
    EXPECT(s2ix_undone_count(&handle, &number), S2IX_DONE);
    EXPECT(number, 0);
    EXPECT(s2ix_apply(&handle, TEXT("s2ix-journal 2\nchange 1\n04 9 7 6\nend 1\n"), &number, &place, &entry), S2IX_NO_JOURNAL);
    EXPECT(s2ix_apply(&handle, TEXT("s2ix-journal 2\nchange 1\n04 9 1 2\nend 1\n"), &number, &place, &entry), S2IX_JOURNAL_FULL);
    EXPECT(number + place + entry, 0);
    EXPECT(s2ix_undo(&handle, &number), S2IX_DONE);
    EXPECT(number, 2);
    EXPECT(s2ix_count(&handle, first, 9, &count), S2IX_DONE);
    EXPECT(count, 3);
    s2ix_close(&handle);
#undef JOURNAL
}

/* Changes that are joined, and older ones that are forgotten. */
static void joined(void) {
    s2ix_handle handle = {0};
    size_t number = 7;
    uint32_t count;
    s2ix_entry entries[3];
    EXPECT(s2ix_open(&handle, 10, 10, 10), S2IX_DONE);
    EXPECT(s2ix_join(&handle, 1, &number), S2IX_TOO_FEW_CHANGES);
    EXPECT(number, 0);
    EXPECT(s2ix_join(&handle, 0, &number), S2IX_DONE);
    EXPECT(s2ix_add(&handle, face, 3, 1, &number), S2IX_DONE);
    EXPECT(s2ix_add(&handle, first, 9, 2, &number), S2IX_DONE);
    EXPECT(s2ix_add(&handle, second, 9, 1, &number), S2IX_DONE);
    EXPECT(s2ix_remove(&handle, second, 9, 1, &number), S2IX_DONE);
    EXPECT(s2ix_add(&handle, first, 9, 1, &number), S2IX_DONE);
    EXPECT(s2ix_add(&handle, second, 4, 1, &number), S2IX_DONE);
    EXPECT(s2ix_undo(&handle, &number), S2IX_DONE);
    EXPECT(s2ix_join(&handle, 6, &number), S2IX_TOO_FEW_CHANGES);
    EXPECT(s2ix_join(&handle, 4, &number), S2IX_DONE);
    EXPECT(number, 1);
    EXPECT(s2ix_done_count(&handle, &number), S2IX_DONE);
    EXPECT(number, 2);
    EXPECT(s2ix_change(&handle, 2, entries, 3, &number), S2IX_DONE);
    EXPECT(number == 1 && entries[0].cell == first && entries[0].before == 0 && entries[0].after == 3, true);
    EXPECT(s2ix_redo(&handle, &number), S2IX_DONE);
    EXPECT(s2ix_undo(&handle, &number), S2IX_DONE);
    EXPECT(s2ix_undo(&handle, &number), S2IX_DONE);
    EXPECT(s2ix_count(&handle, first, 9, &count), S2IX_DONE);
    EXPECT(count, 0);
    EXPECT(s2ix_redo(&handle, &number), S2IX_DONE);
    EXPECT(s2ix_remove(&handle, first, 9, 3, &number), S2IX_DONE);
    EXPECT(s2ix_join(&handle, 2, &number), S2IX_DONE);
    EXPECT(number, 0);
    EXPECT(s2ix_done_count(&handle, &number), S2IX_DONE);
    EXPECT(number, 1);
    EXPECT(s2ix_add(&handle, first, 9, 1, &number), S2IX_DONE);
    EXPECT(s2ix_add(&handle, second, 9, 1, &number), S2IX_DONE);
    EXPECT(s2ix_undo(&handle, &number), S2IX_DONE);
    EXPECT(s2ix_forget_older(&handle, 9), S2IX_DONE);
    EXPECT(s2ix_done_count(&handle, &number), S2IX_DONE);
    EXPECT(number, 2);
    EXPECT(s2ix_forget_older(&handle, 1), S2IX_DONE);
    EXPECT(s2ix_done_count(&handle, &number), S2IX_DONE);
    EXPECT(number, 1);
    EXPECT(s2ix_redo(&handle, &number), S2IX_DONE);
    EXPECT(s2ix_undo(&handle, &number), S2IX_DONE);
    EXPECT(s2ix_undo(&handle, &number), S2IX_DONE);
    EXPECT(s2ix_undo(&handle, &number), S2IX_NOTHING_TO_UNDO);
    EXPECT(s2ix_count(&handle, face, 3, &count), S2IX_DONE);
    EXPECT(count, 1);
    s2ix_close(&handle);
}

static void journalled(void) {
    static const char wanted[] = "s2ix-journal 2\nchange 1\n04 9 0 2\nchange 1\n04 9 2 1\nend 2\n", none[] = "s2ix-journal 2\nend 0\n";
    const size_t len = sizeof wanted - 1;
    s2ix_handle handle = {0};
    size_t number;
    uint8_t text[64];
    EXPECT(s2ix_open(&handle, 10, 10, 10), S2IX_DONE);
    EXPECT(s2ix_journal(&handle, text, sizeof text, &number), S2IX_DONE);
    EXPECT(number, sizeof none - 1);
    EXPECT(memcmp(text, none, number), 0);
    EXPECT(s2ix_add(&handle, first, 9, 2, &number), S2IX_DONE);
    EXPECT(s2ix_remove(&handle, first, 9, 1, &number), S2IX_DONE);
    EXPECT(s2ix_add(&handle, face, 3, 1, &number), S2IX_DONE);
    EXPECT(s2ix_undo(&handle, &number), S2IX_DONE);
    memset(text, 7, sizeof text);
    EXPECT(s2ix_journal(&handle, text, len - 1, &number), S2IX_NO_ROOM);
    EXPECT(number, len);
    EXPECT(text[0], 7);
    EXPECT(s2ix_journal(&handle, text, len, &number), S2IX_DONE);
    EXPECT(memcmp(text, wanted, len), 0);
    EXPECT(text[len], 7);
    s2ix_close(&handle);
}

void check_histories(void) {
    changed();
    replayed();
    resumed();
    too_many_pairs();
    applied();
    joined();
    journalled();
}
