/* Which memory the library holds: a call that opens an open handle anew frees the store that was there, and s2ix_close and s2ix_clear free
   all that a store had. After a refused call it holds no more than before. */
#include "blocks.h"
#include "checks.h"
#include "s2ix.h"

#include <stdint.h>
#include <stdio.h>

static void expect_blocks(const char *name, const char *what, long found, long wanted) {
    if (found != wanted) {
        printf("freed.c: %s: %ld blocks %s, in place of %ld\n", name, found, what, wanted);
        count_fault();
    }
}

enum { DONE = S2IX_DONE };

#define TEXT(text) (const uint8_t *)(text), sizeof(text) - 1

static const char dump[] = "s2ix 2\n04 7 1\n0400000000000001 8 2\n0c 7 1\nend 3 4\n", no_dump[] = "s2ix 2\n04 7 0\nend 1 0\n";
static const char onwards[] = "s2ix-journal 2\nchange 2\n04 7 1 3\n1c 7 0 1\nend 1\n", up_to[] = "s2ix-journal 2\nchange 1\n04 7 0 1\nend 1\n";
static const uint64_t both[] = {0x0c00000000000000, 0x0400000000000000};

/* A store with pairs on two faces, changes to undo and one to redo. */
static void fill(s2ix_handle *handle) {
    size_t number;
    uint32_t wrong = s2ix_open(handle, 1000, 1000, 1000) | s2ix_add_union(handle, both, 2, 7, &number);
    wrong |= s2ix_add(handle, 0x3000000000000000, 9, 1, &number) | s2ix_add(handle, both[0], 8, 2, &number) | s2ix_undo(handle, &number);
    expect_blocks("a store", "short of its changes", wrong, DONE);
}

/* Calls that open `to`: `from` is the handle of a store. */
typedef uint32_t opening(s2ix_handle *from, s2ix_handle *to);

static uint32_t opens(s2ix_handle *from, s2ix_handle *to) { return (void)from, s2ix_open(to, 9, 9, 9); }
static uint32_t copies(s2ix_handle *from, s2ix_handle *to) { return s2ix_copy(from, to); }
static uint32_t loads(s2ix_handle *from, s2ix_handle *to) {
    size_t line;
    return (void)from, s2ix_load(to, TEXT(dump), 9, 9, 9, &line);
}
static uint32_t replays(s2ix_handle *from, s2ix_handle *to) {
    size_t place, entry;
    return (void)from, s2ix_replay(to, TEXT(dump), TEXT(onwards), 9, 9, 9, &place, &entry);
}
static uint32_t rewinds(s2ix_handle *from, s2ix_handle *to) {
    size_t place, entry;
    return (void)from, s2ix_rewind(to, TEXT(dump), TEXT(up_to), 9, 9, 9, &place, &entry);
}
static uint32_t resumes(s2ix_handle *from, s2ix_handle *to) {
    size_t place, entry;
    return (void)from, s2ix_resume(to, TEXT(dump), TEXT(up_to), 9, 9, 9, &place, &entry);
}
static uint32_t resumes_none(s2ix_handle *from, s2ix_handle *to) {
    size_t place, entry;
    return (void)from, s2ix_resume(to, TEXT(dump), TEXT(onwards), 9, 9, 9, &place, &entry);
}
static uint32_t loads_none(s2ix_handle *from, s2ix_handle *to) {
    size_t line;
    return (void)from, s2ix_load(to, TEXT(no_dump), 9, 9, 9, &line);
}
static uint32_t replays_none(s2ix_handle *from, s2ix_handle *to) {
    size_t place, entry;
    return (void)from, s2ix_replay(to, TEXT(dump), TEXT(dump), 9, 9, 9, &place, &entry);
}

static const struct {
    const char *name;
    opening *open;
    uint32_t status;
} openings[] = {
    {"open", opens, S2IX_DONE},          {"copy", copies, S2IX_DONE},           {"load", loads, S2IX_DONE},
    {"replay", replays, S2IX_DONE},      {"rewind", rewinds, S2IX_DONE},        {"load of no dump", loads_none, S2IX_NO_DUMP},
    {"replay of no journal", replays_none, S2IX_NO_JOURNAL},
    {"resume", resumes, S2IX_DONE},      {"resume of a mismatch", resumes_none, S2IX_MISMATCH},
};

/* A closed handle is opened, and again over the same store and over another; then it is closed. */
static void opened_anew(size_t k) {
    const char *name = openings[k].name;
    s2ix_handle from = {0}, to = {0};
    fill(&from);
    const long without = blocks_held();
    expect_blocks(name, "as its status", openings[k].open(&from, &to), openings[k].status);
    const long with = blocks_held();
    openings[k].open(&from, &to);
    expect_blocks(name, "held after a second time", blocks_held(), with);
    s2ix_close(&to);
    expect_blocks(name, "held after its store is closed", blocks_held(), without);
    s2ix_close(&to);
    fill(&to);
    const long filled = blocks_held();
    openings[k].open(&from, &to);
    expect_blocks(name, "held in place of another store", blocks_held(), openings[k].status == S2IX_DONE ? with : filled);
    s2ix_close(&to);
    s2ix_close(&from);
}

/* A store that is cleared holds what it does when it is opened. */
static void cleared(void) {
    s2ix_handle handle = {0};
    s2ix_open(&handle, 1000, 1000, 1000);
    const long opened = blocks_held();
    fill(&handle);
    s2ix_clear(&handle);
    expect_blocks("clear", "held after it", blocks_held(), opened);
    s2ix_close(&handle);
}

void check_freed(void) {
    const long before = blocks_held();
    for (size_t k = 0; k < sizeof openings / sizeof *openings; k++)
        opened_anew(k);
    cleared();
    expect_blocks("all calls", "held after all handles are closed", blocks_held(), before);
}
