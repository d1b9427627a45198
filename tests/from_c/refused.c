/* Refuses each growth of memory in turn, in each call of s2ix.h that allocates: the call must return S2IX_OUT_OF_MEMORY, tell nothing and
   leave the stores, and then do all when it is made again. Calls that do not allocate may not ask for a growth. It has a malloc of its
   own. In the end all that was allocated is freed, by refused calls too. It says 'growths refused from c: N', or the lines at which something
   else came about. */
#include "blocks.h"
#include "s2ix.h"

#include <stdio.h>
#include <stdlib.h>
#include <string.h>

extern void *__libc_malloc(size_t size);
extern void *__libc_realloc(void *old, size_t size);

/* How many growths were asked for, and the number of the one that is refused; 0 if none is. */
static long asked, refused_growth;

void *malloc(size_t size) { return ++asked == refused_growth ? NULL : __libc_malloc(size); }
void *realloc(void *old, size_t size) { return ++asked == refused_growth ? NULL : __libc_realloc(old, size); }

enum { ROOM = 4096 };

static const uint64_t first = 0x0400000000000000, second = 0x0c00000000000000, face = 0x1000000000000000, leaf = 0x0400000000000001;
static const uint64_t two[] = {0x0c00000000000000, 0x0400000000000000}, wrong[] = {0x0400000000000000, 6};
static const uint64_t following[] = {0x0400000000000000, 0x0c00000000000000};
/* As many leaves as lists on the stack have room for at most, and one more. */
enum { MANY = 1024 };
static uint64_t rising[MANY + 1];
static const char dump[] = "s2ix 2\n04 7 1\n0400000000000001 8 2\n0c 7 1\nend 3 4\n";
static const char add_line[] = "add 1 1", meet_line[] = "meet 1";
/* The first leads on from that dump, the second to it. */
static const char onwards[] = "s2ix-journal 2\nchange 2\n04 7 1 3\n1c 7 0 1\nend 1\n";
static const char up_to[] = "s2ix-journal 2\nchange 2\n04 7 0 1\n0c 7 2 1\nend 1\n";
static const s2ix_row rows[] = {{0x1000000000000000, 7, 1}, {0x0400000000000000, 7, 2}, {0x1000000000000000, 7, 1}};
static const s2ix_row wrong_rows[] = {{0x1000000000000000, 7, 1}, {0x0400000000000000, 7, 2}, {0x1000000000000000, 0x80000000, 1}};
/* Pairs that are held more than once over, and a change on two faces. */
static const s2ix_row held_rows[] = {{0x0c00000000000000, 7, 1}, {0x0400000000000001, 8, 1}, {0x0400000000000001, 8, 1}};
static const s2ix_entry entries[] = {{0x0400000000000000, 7, 1, 3}, {0x1000000000000000, 7, 0, 1}, {0x3000000000000000, 9, 0, 1}};
static const s2ix_entry wrong_entries[] = {{0x0400000000000000, 7, 1, 3}, {0x1000000000000000, 0x80000000, 0, 1}, {6, 9, 0, 1}};
static const s2ix_entry turned_entries[] = {{0x3000000000000000, 9, 0, 1}, {0x0400000000000000, 7, 1, 3}};
static const s2ix_entry equal_entries[] = {{0x0400000000000000, 7, 1, 3}, {0x1000000000000000, 7, 1, 1}};
static const uint64_t wrong_cells[] = {0x0c00000000000000, 0x0400000000000000, 0};
/* Leaves, and three targets: two cells, none and a face. */
static const uint64_t leaves[] = {0x0800000000000001, 0x3000000000000001, 0x0400000000000001};
static const uint64_t targets[] = {0x0c00000000000000, 0x0400000000000000, 0x1000000000000000};
static const size_t bounds[] = {0, 2, 2, 3};
/* So many leaves in no order that they are sorted, over so many pairs. */
enum { UNSORTED = 5000, SPREAD = 1200 };
static uint64_t unsorted[UNSORTED];
static size_t unsorted_ends[UNSORTED], ends_one_by_one[UNSORTED];
static uint32_t unsorted_labels[2 * UNSORTED];
static s2ix_row unsorted_rows[2 * UNSORTED], rows_one_by_one[2 * UNSORTED], spread[SPREAD];

/* What a call told: its number, and what it put. */
typedef struct told {
    size_t number;
    union {
        uint8_t bytes[ROOM];
        s2ix_row rows[ROOM / sizeof(s2ix_row)];
        uint64_t cells[ROOM / sizeof(uint64_t)];
        uint32_t labels[ROOM / sizeof(uint32_t)];
        s2ix_entry entries[ROOM / sizeof(s2ix_entry)];
        s2ix_held_label held_labels[ROOM / sizeof(s2ix_held_label)];
    };
} told;

/* A call on a handle; `other` is a second handle, for those that open one. It returns a status. */
typedef uint32_t call(s2ix_handle *handle, s2ix_handle *other, told *told);

#define CALL(name) static uint32_t name(s2ix_handle *handle, s2ix_handle *other, told *told)
#define ROWS told->rows, sizeof told->rows / sizeof *told->rows
#define CELLS told->cells, sizeof told->cells / sizeof *told->cells
#define LABELS told->labels, sizeof told->labels / sizeof *told->labels
#define HELD_LABELS told->held_labels, sizeof told->held_labels / sizeof *told->held_labels
#define ENTRIES told->entries, sizeof told->entries / sizeof *told->entries
#define TEXT(text) (const uint8_t *)text, sizeof text - 1

CALL(opens) { return (void)handle, (void)told, s2ix_open(other, 9, 9, 9); }
CALL(opens_narrow) { return (void)handle, (void)told, s2ix_open(other, 1, 1, 1); }
CALL(loads) { return (void)handle, s2ix_load(other, (const uint8_t *)dump, sizeof dump - 1, 9, 9, 9, &told->number); }
CALL(replays) {
    size_t entry = 1;
    uint32_t status = s2ix_replay(other, TEXT(dump), TEXT(onwards), 9, 9, 9, &told->number, &entry);
    told->cells[0] = entry;
    return (void)handle, status;
}
CALL(rewinds) {
    size_t entry = 1;
    uint32_t status = s2ix_rewind(other, TEXT(dump), TEXT(up_to), 9, 9, 9, &told->number, &entry);
    told->cells[0] = entry;
    return (void)handle, status;
}
CALL(resumes) {
    size_t entry = 1;
    uint32_t status = s2ix_resume(other, TEXT(dump), TEXT(up_to), 9, 9, 9, &told->number, &entry);
    told->cells[0] = entry;
    return (void)handle, status;
}
/* (the second change is on another face than the first) */
CALL(applies) {
    static const char two_changes[] = "s2ix-journal 2\nchange 2\n04 7 1 3\n1c 7 0 1\nchange 1\n3 9 0 1\nend 2\n";
    size_t place = 1, entry = 1;
    uint32_t status = s2ix_apply(handle, TEXT(two_changes), &told->number, &place, &entry);
    told->cells[0] = place + entry;
    return (void)other, status;
}
CALL(joins) { return (void)other, s2ix_join(handle, 2, &told->number); }
CALL(copies) { return (void)told, s2ix_copy(handle, other); }
CALL(adds) { return (void)other, s2ix_add(handle, face, 1, 1, &told->number); }
CALL(adds_all) { return (void)other, s2ix_add_all(handle, rows, 3, &told->number); }
CALL(removes) { return (void)other, s2ix_remove(handle, first, 7, 1, &told->number); }
CALL(removes_all) { return (void)other, s2ix_remove_all(handle, held_rows, 3, &told->number); }
CALL(records) { return (void)other, s2ix_record(handle, entries, 3, &told->number); }
CALL(adds_union) { return (void)other, s2ix_add_union(handle, two, 2, 6, &told->number); }
CALL(drops) { return (void)other, s2ix_drop_label(handle, 7, &told->number); }
CALL(relabels) { return (void)other, s2ix_relabel(handle, 7, 9, &told->number); }
CALL(grows) { return (void)other, s2ix_grow(handle, 7, 1, &told->number); }
CALL(normalises) { return (void)other, s2ix_normalise_label(handle, 8, &told->number); }
CALL(reverts) { return (void)other, s2ix_revert(handle, 1, &told->number); }
CALL(undoes) { return (void)other, s2ix_undo(handle, &told->number); }
CALL(redoes) { return (void)other, s2ix_redo(handle, &told->number); }
CALL(clears) { return (void)other, (void)told, s2ix_clear(handle); }
CALL(meets) { return (void)other, s2ix_meet(handle, two, 2, ROWS, &told->number); }
CALL(meets_from) { return (void)other, s2ix_meet_from(handle, two, 2, 1, ROWS, &told->number); }
CALL(labels) { return (void)other, s2ix_labels(handle, &face, 1, LABELS, &told->number); }
CALL(region) { return (void)other, s2ix_region(handle, 7, CELLS, &told->number); }

/* What a call for many targets told, where it keeps them: an end for each target. */
static size_t ends[3];

/* A refused call for many targets has answered those before the first that wants memory, or none. What it told of these is looked at, and
   then taken away, so that it counts as nothing told. */
static uint32_t front(uint32_t status, told *told, const size_t *wanted) {
    if (status == S2IX_OUT_OF_MEMORY) {
        bool is_front = told->number < 3 && (told->number == 0 || told->number == 2);
        for (size_t k = 0; k < told->number; k++) is_front &= ends[k] == wanted[k];
        if (!is_front) return S2IX_NO_SPAN;
        memset(told, 0, sizeof *told);
    }
    return status;
}

CALL(meets_each) {
    static const size_t wanted[] = {3, 3, 6};
    return (void)other, front(s2ix_meet_each(handle, targets, 3, bounds, 4, ends, 3, ROWS, &told->number), told, wanted);
}
CALL(labels_each) {
    static const size_t wanted[] = {2, 2, 4};
    return (void)other, front(s2ix_labels_each(handle, targets, 3, bounds, 4, ends, 3, LABELS, &told->number), told, wanted);
}
CALL(dumps) { return (void)other, s2ix_dump(handle, told->bytes, ROOM, &told->number); }
CALL(journals) { return (void)other, s2ix_journal(handle, told->bytes, ROOM, &told->number); }
CALL(journals_from) { return (void)other, s2ix_journal_from(handle, 2, told->bytes, ROOM, &told->number); }
CALL(held_labels) { return (void)other, s2ix_held_labels(handle, HELD_LABELS, &told->number); }
CALL(compares) { return s2ix_difference(handle, other, ENTRIES, &told->number); }
CALL(exports) { return (void)other, s2ix_export(handle, told->bytes, ROOM, &told->number); }
CALL(adds_by_line) { return (void)other, s2ix_line(handle, TEXT(add_line), told->bytes, ROOM, &told->number); }
CALL(asks_by_line) { return (void)other, s2ix_line(handle, TEXT(meet_line), told->bytes, ROOM, &told->number); }

/* Calls without a handle. */
static uint8_t kind;
CALL(kind_of_union_line) { return (void)handle, (void)other, (void)told, s2ix_line_kind(TEXT(meet_line), &kind); }
CALL(kind_of_line) { return (void)handle, (void)other, (void)told, s2ix_line_kind(TEXT("region 1"), &kind); }
CALL(border) { return (void)handle, (void)other, s2ix_cell_border(first, 3, CELLS, &told->number); }
CALL(normal_list) { return (void)handle, (void)other, s2ix_union_normalise(two, 2, CELLS, &told->number); }
CALL(from_leaves) { return (void)handle, (void)other, s2ix_union_from_leaves(3, 77, CELLS, &told->number); }
CALL(of_either) { return (void)handle, (void)other, s2ix_union_union(two, 1, two + 1, 1, CELLS, &told->number); }
CALL(of_both) { return (void)handle, (void)other, s2ix_union_intersection(two, 2, two, 1, CELLS, &told->number); }
CALL(of_one) { return (void)handle, (void)other, s2ix_union_difference(two, 2, two, 1, CELLS, &told->number); }
CALL(contains) {
    bool answer = true;
    uint32_t status = s2ix_union_contains(two, 2, leaf, &answer);
    told->number = answer;
    return (void)handle, (void)other, status;
}
CALL(intersects) {
    bool answer = true;
    uint32_t status = s2ix_union_intersects(two, 2, face, &answer);
    told->number = answer;
    return (void)handle, (void)other, status;
}
CALL(leaf_count) { return (void)handle, (void)other, s2ix_union_leaf_count(two, 2, told->cells); }

/* Calls that are refused without a growth: such a call counts as done if it returns the status that is due. */
static uint32_t due(uint32_t status, uint32_t wanted) { return status == wanted ? S2IX_DONE : status; }

CALL(adds_no_row) { return (void)other, due(s2ix_add_all(handle, rows, 0, &told->number), S2IX_NO_CHANGE); }
CALL(adds_wrong_row) { return (void)other, due(s2ix_add_all(handle, wrong_rows, 3, &told->number), S2IX_NO_LABEL); }
CALL(adds_row_to_closed) {
    s2ix_handle closed = {0};
    return (void)handle, (void)other, due(s2ix_add_all(&closed, rows, 3, &told->number), S2IX_CLOSED);
}
CALL(removes_no_row) { return (void)other, due(s2ix_remove_all(handle, held_rows, 0, &told->number), S2IX_NO_CHANGE); }
CALL(removes_wrong_row) { return (void)other, due(s2ix_remove_all(handle, wrong_rows, 3, &told->number), S2IX_NO_LABEL); }
CALL(removes_row_of_closed) {
    s2ix_handle closed = {0};
    return (void)handle, (void)other, due(s2ix_remove_all(&closed, held_rows, 3, &told->number), S2IX_CLOSED);
}
CALL(records_no_entry) { return (void)other, due(s2ix_record(handle, entries, 0, &told->number), S2IX_NO_CHANGE); }
CALL(records_wrong_entry) { return (void)other, due(s2ix_record(handle, wrong_entries, 3, &told->number), S2IX_NO_LABEL); }
CALL(records_turned_entries) { return (void)other, due(s2ix_record(handle, turned_entries, 2, &told->number), S2IX_UNSORTED); }
CALL(records_equal_counts) { return (void)other, due(s2ix_record(handle, equal_entries, 2, &told->number), S2IX_NO_DIFFERENCE); }
CALL(records_on_closed) {
    s2ix_handle closed = {0};
    return (void)handle, (void)other, due(s2ix_record(&closed, entries, 3, &told->number), S2IX_CLOSED);
}
CALL(adds_no_copy) { return (void)other, due(s2ix_add(handle, first, 7, 0, &told->number), S2IX_NO_CHANGE); }
CALL(adds_no_cell) { return (void)other, due(s2ix_add_union(handle, two, 0, 6, &told->number), S2IX_NO_CHANGE); }
CALL(adds_wrong_label) { return (void)other, due(s2ix_add_union(handle, two, 2, 0x80000000, &told->number), S2IX_NO_LABEL); }
CALL(adds_wrong_cell) { return (void)other, due(s2ix_add_union(handle, wrong_cells, 3, 6, &told->number), S2IX_NO_CELL); }
CALL(adds_union_to_closed) {
    s2ix_handle closed = {0};
    return (void)handle, (void)other, due(s2ix_add_union(&closed, two, 2, 6, &told->number), S2IX_CLOSED);
}
CALL(adds_without_room) { return (void)other, due(s2ix_line(handle, TEXT(add_line), told->bytes, 31, &told->number), S2IX_NO_ROOM); }
CALL(undoes_without_room) { return (void)other, due(s2ix_line(handle, TEXT("undo"), told->bytes, 31, &told->number), S2IX_NO_ROOM); }
CALL(redoes_without_room) { return (void)other, due(s2ix_line(handle, TEXT("redo"), told->bytes, 31, &told->number), S2IX_NO_ROOM); }

CALL(journals_from_none) {
    return (void)other, due(s2ix_journal_from(handle, 4, told->bytes, ROOM, &told->number), S2IX_NO_SUCH_CHANGE);
}
CALL(compares_with_closed) {
    s2ix_handle closed = {0};
    return (void)other, due(s2ix_difference(handle, &closed, ENTRIES, &told->number), S2IX_CLOSED);
}

/* Calls that do not allocate. */
CALL(of_label) { return (void)other, s2ix_of_label(handle, 7, ROWS, &told->number); }
CALL(contents) { return (void)other, s2ix_contents(handle, 1, 0, ROWS, &told->number); }
CALL(meets_leaf) { return (void)other, s2ix_meet(handle, &leaf, 1, ROWS, &told->number); }
CALL(meets_following) { return (void)other, s2ix_meet(handle, following, 2, ROWS, &told->number); }
CALL(meets_following_from) { return (void)other, s2ix_meet_from(handle, following, 2, 1, ROWS, &told->number); }
CALL(meets_many) { return (void)other, s2ix_meet(handle, rising, MANY, ROWS, &told->number); }
CALL(meets_more) { return (void)other, s2ix_meet(handle, rising, MANY + 1, ROWS, &told->number); }
CALL(meets_each_following) {
    static const size_t all[] = {0, 2, 2};
    return (void)other, s2ix_meet_each(handle, following, 2, all, 3, ends, 2, ROWS, &told->number);
}
CALL(meets_leaf_from) { return (void)other, s2ix_meet_from(handle, &leaf, 1, 1, ROWS, &told->number); }
CALL(ranges) {
    s2ix_leaf_range page[2] = {{0, 0, false}, {0, 0, false}};
    uint32_t status = s2ix_ranges(handle, 1, page, 2, &told->number);
    /* (field by field, since the struct has padding) */
    for (size_t k = 0; k < 2; k++) {
        told->cells[3 * k] = page[k].start;
        told->cells[3 * k + 1] = page[k].limit;
        told->cells[3 * k + 2] = page[k].is_empty;
    }
    return (void)other, status;
}
CALL(at) { return (void)other, s2ix_at(handle, leaf, ROWS, &told->number); }
CALL(at_each) { return (void)other, s2ix_at_each(handle, leaves, 3, ends, 3, ROWS, &told->number); }
CALL(labels_at_each) { return (void)other, s2ix_labels_at_each(handle, leaves, 3, ends, 3, LABELS, &told->number); }
CALL(pairs) { return (void)other, s2ix_pairs(handle, 0, ROWS, &told->number); }
CALL(change) { return (void)other, s2ix_change(handle, 1, ENTRIES, &told->number); }
CALL(range) {
    bool is_empty = true;
    uint32_t status = s2ix_range(handle, 1, told->cells, told->cells + 1, &is_empty);
    told->number = is_empty;
    return (void)other, status;
}
CALL(next_full) { return (void)other, s2ix_next_full(handle, 1, &told->number); }
CALL(previous_full) { return (void)other, s2ix_previous_full(handle, 2, &told->number); }
CALL(finds) { return (void)other, s2ix_find(handle, leaf, &told->number, told->cells, told->cells + 1); }
CALL(counts) { return (void)other, s2ix_count(handle, first, 7, told->labels); }
CALL(forgets) { return (void)other, (void)told, s2ix_forget(handle); }
CALL(forgets_older) { return (void)other, (void)told, s2ix_forget_older(handle, 1); }
CALL(joins_one) { return (void)other, s2ix_join(handle, 1, &told->number); }
CALL(joins_too_many) { return (void)other, due(s2ix_join(handle, 3, &told->number), S2IX_TOO_FEW_CHANGES); }
CALL(applies_to_closed) {
    s2ix_handle closed = {0};
    size_t place = 7, entry = 7;
    return (void)handle, (void)other, due(s2ix_apply(&closed, TEXT(onwards), &told->number, &place, &entry), S2IX_CLOSED);
}
/* Nothing is asked for: an empty list of cells, a label that isn't held, equal bounds, no room for a page. */
CALL(asks_for_nothing) {
    static const size_t none[] = {0, 0, 0};
    bool answer = true;
    uint32_t status = s2ix_meet(handle, two, 0, ROWS, &told->number);
    status += told->number + s2ix_meet_from(handle, two, 0, 0, ROWS, &told->number);
    status += told->number + s2ix_meet_from(handle, two, 2, 0, told->rows, 0, &told->number);
    status += told->number + s2ix_labels(handle, two, 0, LABELS, &told->number);
    status += told->number + s2ix_meet_each(handle, two, 0, none, 3, ends, 2, ROWS, &told->number) + ends[1];
    status += told->number - 2 + s2ix_labels_each(handle, two, 0, none, 3, ends, 2, LABELS, &told->number) + ends[1];
    status += told->number - 2 + s2ix_meet_each(handle, two, 2, bounds, 1, ends, 0, ROWS, &told->number);
    status += told->number + s2ix_region(handle, 9, CELLS, &told->number);
    status += told->number + s2ix_of_label(handle, 9, ROWS, &told->number);
    status += told->number + s2ix_union_normalise(two, 0, CELLS, &told->number);
    status += told->number + s2ix_union_from_leaves(3, 3, CELLS, &told->number);
    status += told->number + s2ix_union_union(two, 0, two, 0, CELLS, &told->number);
    status += told->number + s2ix_union_intersection(two, 0, two, 2, CELLS, &told->number);
    status += told->number + s2ix_union_intersection(two, 2, two, 0, CELLS, &told->number);
    status += told->number + s2ix_union_difference(two, 0, two, 2, CELLS, &told->number);
    status += told->number + s2ix_union_contains(two, 0, first, &answer) + answer;
    status += s2ix_union_intersects(two, 0, first, &answer) + answer + s2ix_union_leaf_count(two, 0, told->cells);
    return (void)other, status;
}
/* A number is no cell's: its place is told, and no memory is wanted. */
CALL(asks_for_no_cell) {
    bool answer = true;
    bool is_told = s2ix_meet(handle, wrong, 2, ROWS, &told->number) == S2IX_NO_CELL && told->number == 1;
    is_told &= s2ix_meet_from(handle, wrong, 2, 0, ROWS, &told->number) == S2IX_NO_CELL && told->number == 1;
    is_told &= s2ix_meet_from(handle, wrong, 2, 0, told->rows, 0, &told->number) == S2IX_NO_CELL && told->number == 1;
    is_told &= s2ix_labels(handle, wrong, 2, LABELS, &told->number) == S2IX_NO_CELL && told->number == 1;
    is_told &= s2ix_meet_each(handle, wrong, 2, bounds, 2, ends, 1, ROWS, &told->number) == S2IX_NO_CELL && told->number == 0;
    is_told &= s2ix_labels_each(handle, wrong, 2, bounds, 2, ends, 0, LABELS, &told->number) == S2IX_NO_CELL && told->number == 0;
    is_told &= s2ix_meet_each(handle, wrong, 1, bounds, 2, ends, 1, ROWS, &told->number) == S2IX_NO_SPAN && told->number == 0;
    is_told &= s2ix_labels_each(handle, two, 2, bounds, 2, ends, 0, LABELS, &told->number) == S2IX_NO_ROOM && told->number == 0;
    is_told &= s2ix_union_normalise(wrong, 2, CELLS, &told->number) == S2IX_NO_CELL && told->number == 1;
    is_told &= s2ix_union_union(two, 2, wrong, 2, CELLS, &told->number) == S2IX_NO_CELL && told->number == 3;
    is_told &= s2ix_union_intersection(two, 0, wrong, 2, CELLS, &told->number) == S2IX_NO_CELL && told->number == 1;
    is_told &= s2ix_union_difference(wrong, 2, two, 2, CELLS, &told->number) == S2IX_NO_CELL && told->number == 1;
    is_told &= s2ix_union_contains(two, 2, wrong[1], &answer) == S2IX_NO_CELL && !answer;
    is_told &= s2ix_union_intersects(wrong, 2, first, &answer) == S2IX_NO_CELL && !answer;
    is_told &= s2ix_union_leaf_count(wrong, 2, told->cells) == S2IX_NO_CELL && told->cells[0] == 0;
    return (void)other, is_told ? S2IX_DONE : S2IX_NO_CELL;
}
CALL(closes_other) {
    s2ix_close(other);
    return (void)told, s2ix_len(handle, &told->number);
}

static const struct {
    const char *name;
    call *make;
    bool allocates;
} calls[] = {
    {"open", opens, true},
    {"open of one pair", opens_narrow, true},
    {"load", loads, true},
    {"replay", replays, true},
    {"rewind", rewinds, true},
    {"resume", resumes, true},
    {"apply", applies, true},
    {"join", joins, true},
    {"copy", copies, true},
    {"add", adds, true},
    {"add_all", adds_all, true},
    {"remove", removes, true},
    {"remove_all", removes_all, true},
    {"record", records, true},
    {"add_union", adds_union, true},
    {"drop_label", drops, true},
    {"relabel", relabels, true},
    {"grow", grows, true},
    {"normalise_label", normalises, true},
    {"revert", reverts, true},
    {"undo", undoes, true},
    {"redo", redoes, true},
    {"clear", clears, true},
    {"meet", meets, true},
    {"meet_from", meets_from, true},
    {"labels", labels, true},
    {"meet_each", meets_each, true},
    {"labels_each", labels_each, true},
    {"region", region, true},
    {"dump", dumps, true},
    {"journal", journals, true},
    {"journal_from", journals_from, true},
    {"held_labels", held_labels, true},
    {"difference", compares, true},
    {"export", exports, true},
    {"line of an edit", adds_by_line, true},
    {"line of a query", asks_by_line, true},
    {"kind of a line with cells", kind_of_union_line, true},
    {"kind of another line", kind_of_line, false},
    {"border", border, true},
    {"union_normalise", normal_list, true},
    {"union_from_leaves", from_leaves, true},
    {"union_union", of_either, true},
    {"union_intersection", of_both, true},
    {"union_difference", of_one, true},
    {"union_contains", contains, true},
    {"union_intersects", intersects, true},
    {"union_leaf_count", leaf_count, true},
    {"add_all of no row", adds_no_row, false},
    {"add_all of a wrong row", adds_wrong_row, false},
    {"add_all to a closed handle", adds_row_to_closed, false},
    {"remove_all of no row", removes_no_row, false},
    {"remove_all of a wrong row", removes_wrong_row, false},
    {"remove_all of a closed handle", removes_row_of_closed, false},
    {"record of no entry", records_no_entry, false},
    {"record of a wrong entry", records_wrong_entry, false},
    {"record of entries in the wrong order", records_turned_entries, false},
    {"record of equal counts", records_equal_counts, false},
    {"record on a closed handle", records_on_closed, false},
    {"add of no copy", adds_no_copy, false},
    {"add_union of no cell", adds_no_cell, false},
    {"add_union of a wrong label", adds_wrong_label, false},
    {"add_union of a wrong cell", adds_wrong_cell, false},
    {"add_union to a closed handle", adds_union_to_closed, false},
    {"line of an edit without room", adds_without_room, false},
    {"line of an undo without room", undoes_without_room, false},
    {"line of a redo without room", redoes_without_room, false},
    {"of_label", of_label, false},
    {"contents", contents, false},
    {"nothing asked for", asks_for_nothing, false},
    {"no cell", asks_for_no_cell, false},
    {"meet of a leaf", meets_leaf, false},
    {"meet_from of a leaf", meets_leaf_from, false},
    {"meet of cells that follow one another", meets_following, false},
    {"meet_from of cells that follow one another", meets_following_from, false},
    {"meet_each of cells that follow one another", meets_each_following, false},
    {"meet of 1,024 leaves", meets_many, false},
    {"meet of 1,025 leaves", meets_more, true},
    {"ranges", ranges, false},
    {"at", at, false},
    {"at_each", at_each, false},
    {"labels_at_each", labels_at_each, false},
    {"pairs", pairs, false},
    {"change", change, false},
    {"journal from no change", journals_from_none, false},
    {"difference to a closed handle", compares_with_closed, false},
    {"range", range, false},
    {"next_full", next_full, false},
    {"previous_full", previous_full, false},
    {"find", finds, false},
    {"count", counts, false},
    {"forget", forgets, false},
    {"forget_older", forgets_older, false},
    {"join of one change", joins_one, false},
    {"join of too many", joins_too_many, false},
    {"apply to a closed handle", applies_to_closed, false},
    {"close", closes_other, false},
}, of_empty[] = {
    /* The handle's store is empty. */
    {"copy of an empty store", copies, true},
    {"clear of an empty store", clears, true},
    {"held_labels of an empty store", held_labels, false},
};

/* All that a store shows: what it holds, its changes that can be undone, and how many can be redone. */
typedef struct shown {
    size_t texts[2], undone;
    uint8_t bytes[2][ROOM];
    bool is_open;
} shown;

static int faults;

static void expect(const char *name, long growth, const char *what, bool holds) {
    if (!holds) {
        printf("refused.c: %s, growth %ld: %s\n", name, growth, what);
        faults++;
    }
}

static void show(s2ix_handle *handle, shown *shown) {
    memset(shown, 0, sizeof *shown);
    shown->is_open = handle->is_open;
    if (!handle->is_open) return;
    if (s2ix_dump(handle, shown->bytes[0], ROOM, &shown->texts[0]) != S2IX_DONE) abort();
    if (s2ix_journal(handle, shown->bytes[1], ROOM, &shown->texts[1]) != S2IX_DONE) abort();
    if (s2ix_undone_count(handle, &shown->undone) != S2IX_DONE) abort();
}

/* Two stores: the first is empty, or has changes that can be undone and one that can be redone. */
static void start(s2ix_handle *handle, s2ix_handle *other, bool is_empty) {
    size_t number;
    uint64_t both[] = {first, second};
    if (s2ix_open(handle, 1000, 1000, 1000) != S2IX_DONE || s2ix_open(other, 5, 5, 5) != S2IX_DONE) abort();
    if (s2ix_add(other, second, 3, 1, &number) != S2IX_DONE) abort();
    if (is_empty) return;
    if (s2ix_add_union(handle, both, 2, 7, &number) != S2IX_DONE) abort();
    if (s2ix_add(handle, leaf, 8, 2, &number) != S2IX_DONE) abort();
    if (s2ix_add(handle, 0x3000000000000000, 9, 1, &number) != S2IX_DONE || s2ix_undo(handle, &number) != S2IX_DONE) abort();
}

/* Makes a call with a growth refused, counted from 1; 0 refuses none. Returns its status. */
static uint32_t make(call *call, s2ix_handle *handle, s2ix_handle *other, told *told, long growth) {
    memset(told, 0, sizeof *told);
    asked = 0;
    refused_growth = growth;
    uint32_t status = call(handle, other, told);
    refused_growth = 0;
    return status;
}

static bool are_same(const shown *one, const shown *two) { return memcmp(one, two, sizeof *one) == 0; }

static const told nothing;
static shown before[2], after[2], found[2];
static told right, given;

/* Refuses each growth of a call in turn. Returns how many calls gave up. */
static int refuse(const char *name, call *call, bool allocates, bool is_empty) {
    int refused = 0;
    s2ix_handle handle = {0}, other = {0};
    start(&handle, &other, is_empty);
    show(&handle, &before[0]);
    show(&other, &before[1]);
    expect(name, 0, "a call with memory is refused", make(call, &handle, &other, &right, 0) == S2IX_DONE);
    long growths = asked;
    expect(name, 0, allocates ? "the call asks for no growth" : "the call asks for a growth", (growths > 0) == allocates);
    show(&handle, &after[0]);
    show(&other, &after[1]);
    for (long growth = 1; growth <= growths; growth++) {
        start(&handle, &other, is_empty);
        uint32_t status = make(call, &handle, &other, &given, growth);
        if (status != S2IX_DONE) {
            refused++;
            expect(name, growth, "a wrong status", status == S2IX_OUT_OF_MEMORY);
            expect(name, growth, "a refused call tells something", memcmp(&given, &nothing, sizeof given) == 0);
            show(&handle, &found[0]);
            show(&other, &found[1]);
            expect(name, growth, "a refused call changes a store", are_same(&found[0], &before[0]) && are_same(&found[1], &before[1]));
            expect(name, growth, "the call is refused again", make(call, &handle, &other, &given, 0) == S2IX_DONE);
        }
        show(&handle, &found[0]);
        show(&other, &found[1]);
        expect(name, growth, "the stores are others than with memory", are_same(&found[0], &after[0]) && are_same(&found[1], &after[1]));
        expect(name, growth, "the call tells something else than with memory", memcmp(&given, &right, sizeof given) == 0);
    }
    s2ix_close(&handle);
    s2ix_close(&other);
    expect(name, growths, "something is not freed", blocks_held() == 0);
    return refused;
}

/* How many growths a call asks for, of a store that is empty or has pairs. */
static long growths_of(call *call, bool is_empty) {
    s2ix_handle handle = {0}, other = {0};
    start(&handle, &other, is_empty);
    make(call, &handle, &other, &given, 0);
    const long growths = asked;
    s2ix_close(&handle);
    s2ix_close(&other);
    return growths;
}

/* Asks for the first leaves in no order, by rows or by labels, with a growth refused. Returns how many growths were asked for. */
static long ask_unsorted(s2ix_handle *handle, const char *name, size_t len, bool by_rows, long growth) {
    size_t answered = 0;
    uint32_t status;
    memset(unsorted_ends, 0, sizeof unsorted_ends);
    asked = 0;
    refused_growth = growth;
    if (by_rows) status = s2ix_at_each(handle, unsorted, len, unsorted_ends, len, unsorted_rows, 2 * UNSORTED, &answered);
    else status = s2ix_labels_at_each(handle, unsorted, len, unsorted_ends, len, unsorted_labels, 2 * UNSORTED, &answered);
    refused_growth = 0;
    bool holds = status == S2IX_DONE && answered == len && memcmp(unsorted_ends, ends_one_by_one, len * sizeof *unsorted_ends) == 0;
    for (size_t k = 0; holds && k < unsorted_ends[len - 1]; k++) {
        if (by_rows) holds = memcmp(&unsorted_rows[k], &rows_one_by_one[k], sizeof *unsorted_rows) == 0;
        else holds = unsorted_labels[k] == rows_one_by_one[k].label;
    }
    expect(name, growth, "leaves in no order get other answers than one by one", holds);
    return asked;
}

/* Refuses each growth that thousands of leaves in no order ask for: they get the same answers. Fewer leaves ask for none, nor do rising ones. */
static void refuse_unsorted(void) {
    s2ix_handle handle = {0};
    size_t number = 0, end = 0;
    const uint64_t apart = (uint64_t)1 << 33;
    for (size_t k = 0; k < SPREAD; k++) spread[k] = (s2ix_row){k * apart + apart / 2, (uint32_t)(k % 70), 1};
    if (s2ix_open(&handle, 2000, 2000, 1000) != S2IX_DONE || s2ix_add_all(&handle, spread, SPREAD, &number) != S2IX_DONE) abort();
    if (s2ix_add(&handle, face, 90, 1, &number) != S2IX_DONE) abort();
    for (size_t k = 0; k < UNSORTED; k++) unsorted[k] = (k * 61803 % 100003) * (apart / 128) + 1;
    for (size_t k = 0; k < UNSORTED; end += number, ends_one_by_one[k++] = end) {
        if (s2ix_at(&handle, unsorted[k], rows_one_by_one + end, 2 * UNSORTED - end, &number) != S2IX_DONE) abort();
    }
    for (int by_rows = 0; by_rows < 2; by_rows++) {
        const char *name = by_rows ? "at_each of 5,000 leaves" : "labels_at_each of 5,000 leaves";
        const long growths = ask_unsorted(&handle, name, UNSORTED, by_rows, 0);
        expect(name, 0, "the leaves are not sorted", growths == 5);
        for (long growth = 1; growth <= growths; growth++) ask_unsorted(&handle, name, UNSORTED, by_rows, growth);
        expect("4,096 leaves", 0, "the leaves are not sorted", ask_unsorted(&handle, name, 4096, by_rows, 0) == 5);
        expect("4,095 leaves", 0, "the call asks for a growth", ask_unsorted(&handle, name, 4095, by_rows, 0) == 0);
    }
    for (size_t k = 0; k < UNSORTED; k++) unsorted[k] = leaf + 2 * k;
    asked = 0;
    size_t answered = 0;
    const uint32_t status = s2ix_labels_at_each(&handle, unsorted, UNSORTED, unsorted_ends, UNSORTED, unsorted_labels, 2 * UNSORTED, &answered);
    expect("5,000 rising leaves", 0, "the call asks for a growth", status == S2IX_DONE && asked == 0);
    s2ix_close(&handle);
    expect("leaves in no order", 0, "something is not freed", blocks_held() == 0);
}

int main(void) {
    int refused = 0;
    for (size_t k = 0; k < MANY + 1; k++) rising[k] = leaf + 2 * k;
    expect("meet", 0, "pairs that are met want memory", growths_of(meets, false) == growths_of(meets, true));
    expect("meet_from", 0, "pairs that are met want memory", growths_of(meets_from, false) == growths_of(meets_from, true));
    for (size_t k = 0; k < sizeof calls / sizeof *calls; k++) {
        int each = refuse(calls[k].name, calls[k].make, calls[k].allocates, false);
        expect(calls[k].name, 0, "a call that doesn't allocate gives up", each == 0 || calls[k].allocates);
        refused += each;
    }
    for (size_t k = 0; k < sizeof of_empty / sizeof *of_empty; k++) refused += refuse(of_empty[k].name, of_empty[k].make, of_empty[k].allocates, true);
    refuse_unsorted();
    printf("growths refused from c: %d\n", refused);
    return faults > 0;
}
