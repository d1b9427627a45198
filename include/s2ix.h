/* The S2 cell index that can be edited: stores in handles, cells and unions of cells. FROM_C.md says how to build the library; FORMATS.md
   has the texts. Both lie in docs of the repository, and in share/doc/s2ix where ./install put this file.

   Cells are S2's 64-bit ids, labels are 0 to 2147483647. Each call returns a status, except that s2ix_close returns nothing and some calls
   on cells return a bool. A call whose status is not S2IX_DONE leaves the store as it was. In costs, n is the number of pairs held, unless
   the call says otherwise. A query takes the store out of its handle and puts it back, so the handle isn't const.

   A call that gives a list takes a buffer with room for `room` items, and sets *number to how many items the list has. If the buffer has
   room for all, the call puts them at its front; else the status is S2IX_NO_ROOM. Then s2ix_at, s2ix_contents, s2ix_meet and s2ix_labels
   have filled the buffer with the first items of the list, and the buffer of any other call stays as it was. A call refused for another
   reason leaves the buffer as it was and sets *number to 0, with one exception: if a call that takes a list of rows, entries or cells finds
   a wrong one, *number is the place of the first, counted from 0; with two lists the places count on through the second. s2ix_remove_all
   and s2ix_record tell the place for further statuses too.

   A call that gives a list for each of many leaves or targets puts the lists one after the other. ends[k] becomes how many items the lists
   have up to and with that of leaf or target k; `ends` has room for `ends_room` numbers. The call answers leaves or targets in their order,
   and *answered is how many. If the status is not S2IX_DONE, it says why the next one is not answered. If that is S2IX_NO_ROOM, the next
   one is right, but its list or its end has no room: the caller goes on from there, with more room if *answered is 0. The next call gets
   leaves + *answered, or the same cells and bounds + *answered, and len - *answered. It counts from its own first list, and puts the ends to
   ends + *answered or to `ends` again. Past the answers a call may overwrite both buffers. If the handle is closed, *answered is 0, and both
   buffers stay as they were.

   There may be several reasons to refuse a call. An edit tells of a wrong cell or label first, then of a closed handle; any other call tells
   of a closed handle first. S2IX_OUT_OF_MEMORY comes after these. If memory is refused, it may come in place of a reason that the call has
   not looked for yet:

   - in a call that names both statuses, S2IX_NO_ROOM;
   - in an edit, S2IX_NO_CHANGE, S2IX_TOO_MANY_COPIES or S2IX_TOO_MANY_PAIRS;
   - in s2ix_add_all, s2ix_remove_all, s2ix_add_union and s2ix_record, S2IX_JOURNAL_FULL too;
   - in s2ix_remove_all, S2IX_NOT_HELD too, and in s2ix_record, S2IX_MISMATCH;
   - in s2ix_load, s2ix_replay, s2ix_rewind and s2ix_resume, whatever is wrong after the dump's first line;
   - in s2ix_apply, whatever is wrong after the journal's first line.

   A call other than s2ix_line wants no memory if it is given no rows, entries or cells, a label that is not held, equal bounds, or a page
   with no room; s2ix_line may want memory for any query. s2ix_meet and s2ix_meet_from also want none if they are given at most 1,024 cells
   that follow one another: the cells rise, with or without gaps, and none lies within another, as in each valid S2CellUnion. s2ix_meet_each
   wants none for such a target. For 129 to 1,024 cells, whether they follow one another or not, these three calls, s2ix_labels and
   s2ix_labels_each take 9 KB of the stack.

   You must ensure this, since no call can check it:

   - A handle starts as {0}, and only these calls change it. Never use a copy of an open one.
   - The calls on one handle are ordered by a lock, a thread's start or join, or a sequentially consistent atomic. In C11 acquire and
     release order them too, but the library's proof does not cover that.
   - Each pointer is aligned and points to as many initialised items as the call says. None is NULL, not even a pointer to no items.
   - What a call writes overlaps nothing else that it is given, so never give s2ix_copy or s2ix_difference one handle twice.
   - malloc, realloc and free belong to one allocator.
   - No call is made in a signal handler, or in the forked child of a process with threads. */
#ifndef S2IX_H
#define S2IX_H

/* The version of this header and of its library. A program that was built with this header runs over each later library whose version begins
   with the same number, which the soname has too. */
#define S2IX_VERSION "1.1.0"

#include <stdbool.h>
#include <stddef.h>
#include <stdint.h>

#ifdef __cplusplus
extern "C" {
#endif

/* A store, or none. It starts as {0}, which is closed. Never copy it by assignment.

   A handle may go from thread to thread, which is proved. One call at a time takes it, queries too. Different handles may be used at once on
   different threads. This holds for a store and its copies by s2ix_copy too: they share memory, but count its users by atomics. */
typedef struct s2ix_handle {
    void *address;
    bool is_open;
} s2ix_handle;

/* A pair of a cell and a label that a store holds, with its count. */
typedef struct s2ix_row {
    uint64_t cell;
    uint32_t label;
    uint32_t count;
} s2ix_row;

/* A pair in a change, with its count before and after: they differ, and 0 is the count of a pair that is not held. */
typedef struct s2ix_entry {
    uint64_t cell;
    uint32_t label;
    uint32_t before;
    uint32_t after;
} s2ix_entry;

/* A label that is held: how many pairs have it, and the sum of their counts. */
typedef struct s2ix_held_label {
    uint32_t label;
    uint32_t pairs;
    uint64_t copies;
} s2ix_held_label;

/* A range of leaves over which the same pairs lie. */
typedef struct s2ix_leaf_range {
    uint64_t start; /* the number of its first leaf */
    uint64_t limit; /* the first leaf number after it */
    bool is_empty;  /* whether no pair lies over it */
} s2ix_leaf_range;

enum s2ix_status {
    S2IX_DONE = 0,
    S2IX_CLOSED = 1,          /* the handle is closed */
    S2IX_OUT_OF_MEMORY = 2,   /* memory was refused */
    S2IX_NO_CELL = 3,         /* a number is no cell's, or no leaf's in a call that takes leaves; or there is no such cell */
    S2IX_NO_LABEL = 4,        /* a number is no label's */
    S2IX_NO_LIMITS = 5,       /* limits are out of their ranges */
    S2IX_NOTHING_TO_UNDO = 6,
    S2IX_NOTHING_TO_REDO = 7,
    S2IX_NO_ROOM = 8,         /* the buffer is too short */
    S2IX_NO_DUMP = 9,         /* the text is no dump under the limits */
    S2IX_JOURNAL_FULL = 16,   /* the changes to undo are as many as the limit allows: s2ix_forget_older makes room */
    S2IX_NO_SUCH_LABEL = 17,  /* no pair of the label is held */
    S2IX_NOT_HELD = 18,       /* too few copies held */
    S2IX_TOO_FINE = 19,       /* the level is above 30, or more than 8 above that of the cell, or of a cell of the label */
    S2IX_NO_SUCH_CHANGE = 20, /* no change that can be undone has the number */
    S2IX_BELOW_ZERO = 21,     /* a count would be below 0 */
    S2IX_NO_CHANGE = 22,      /* nothing would change */
    S2IX_TOO_MANY_COPIES = 23,
    S2IX_TOO_MANY_PAIRS = 24,
    S2IX_COARSER = 25,        /* the level is below the cell's */
    S2IX_NO_SPAN = 26,        /* a bound is even, or not 1 <= start <= limit <= 0xc000000000000001; or a target's fall, or pass the end */
    S2IX_NO_RANGE = 27,       /* no range is at the place; or none on the side that is asked for has a pair over it */
    S2IX_NO_JOURNAL = 28,     /* the text is no journal under the limits */
    S2IX_MISMATCH = 29,       /* a change has another count of a pair than is held */
    S2IX_TOO_FEW_CHANGES = 30, /* fewer changes can be undone than are to be joined */
    S2IX_UNSORTED = 31,       /* an entry of a list is not above the one before it */
    S2IX_NO_DIFFERENCE = 32   /* the two counts of an entry of a list are equal */
};

/* What a status means, in words, as *number bytes with no zero after them; 64 bytes are room enough. S2IX_NO_ROOM. */
uint32_t s2ix_status_text(uint32_t status, uint8_t *text, size_t room, size_t *number);

/* The version of the library that runs, as S2IX_VERSION is the header's: *number bytes with no zero after them; 64 bytes are room enough.
   S2IX_NO_ROOM. */
uint32_t s2ix_version(uint8_t *text, size_t room, size_t *number);

/* Opens a handle of an empty store of at most `pairs` pairs (1 to 1,000,000), `copies` copies of each (1 and up) and `changes` changes to
   undo (1 to 100,000). If the call is not refused, it frees the store that the handle had. O(1), besides the freeing. S2IX_NO_LIMITS,
   S2IX_OUT_OF_MEMORY. */
uint32_t s2ix_open(s2ix_handle *handle, uint32_t pairs, uint32_t copies, uint32_t changes);

/* Opens a handle of the store that starts from a dump's collection, under limits as those of s2ix_open, with nothing to undo or redo. If
   the call is not refused, it frees the store that the handle had. For S2IX_NO_DUMP *line is the number of the text's first line
   with a fault, counted from 1; else it is 0. O(n) for n bytes. S2IX_NO_LIMITS, S2IX_NO_DUMP, S2IX_OUT_OF_MEMORY. */
uint32_t s2ix_load(s2ix_handle *handle, const uint8_t *text, size_t len, uint32_t pairs, uint32_t copies, uint32_t changes, size_t *line);

/* Opens a handle of the store that starts from a dump's collection after a journal's changes, under limits as those of s2ix_open, with
   nothing to undo or redo. If the call is not refused, it frees the store that the handle had. The first thing that is wrong decides: a
   line of the dump, a line of the journal, or a change. For S2IX_NO_DUMP and S2IX_NO_JOURNAL *place is the number of that line; for
   S2IX_MISMATCH, S2IX_TOO_MANY_COPIES and S2IX_TOO_MANY_PAIRS it is the number of that change. For S2IX_MISMATCH *entry is the number of
   the entry in the change. Both count from 1 in the order of the text, and are 0 otherwise. O(n + m log n) for n bytes and pairs and m
   entries. S2IX_NO_LIMITS, S2IX_NO_DUMP, S2IX_NO_JOURNAL, S2IX_MISMATCH, S2IX_TOO_MANY_COPIES, S2IX_TOO_MANY_PAIRS, S2IX_OUT_OF_MEMORY. */
uint32_t s2ix_replay(s2ix_handle *handle, const uint8_t *dump, size_t dump_len, const uint8_t *journal, size_t journal_len, uint32_t pairs,
                     uint32_t copies, uint32_t changes, size_t *place, size_t *entry);

/* The same, but the changes are taken back from the dump's collection, the last one first. */
uint32_t s2ix_rewind(s2ix_handle *handle, const uint8_t *dump, size_t dump_len, const uint8_t *journal, size_t journal_len, uint32_t pairs,
                     uint32_t copies, uint32_t changes, size_t *place, size_t *entry);

/* Opens a handle of the store that a dump and a journal were written of: it starts from the dump's collection, and the journal's changes,
   the last of which led there, can be undone. Nothing can be redone. All else is as in s2ix_rewind, O(n + m log n) too. */
uint32_t s2ix_resume(s2ix_handle *handle, const uint8_t *dump, size_t dump_len, const uint8_t *journal, size_t journal_len, uint32_t pairs,
                     uint32_t copies, uint32_t changes, size_t *place, size_t *entry);

/* Opens `copy` on a new store with the same pairs and limits, and with nothing to undo or redo. If the call is not refused, it
   frees the store that `copy` had. The two stores share memory, and may be used at once on different threads. O(1), besides the freeing.
   The first edit, undo, redo or s2ix_apply of one of them then takes O(p) more, for the p parts of some hundred pairs that a store is kept in.
   S2IX_CLOSED, S2IX_OUT_OF_MEMORY. */
uint32_t s2ix_copy(s2ix_handle *handle, s2ix_handle *copy);

/* Closes a handle and frees all that its store had; a closed one stays closed. O(n). */
void s2ix_close(s2ix_handle *handle);

/* Edits: each is one change, which can be undone. *number is how many pairs changed their counts. Besides the statuses named, each may
   return S2IX_CLOSED, S2IX_JOURNAL_FULL, S2IX_NO_CHANGE, S2IX_TOO_MANY_COPIES, S2IX_TOO_MANY_PAIRS or S2IX_OUT_OF_MEMORY. A
   store is kept in parts of some hundred pairs: the time grows with the number of parts, and with the pairs of those that change. */

/* Adds copies to the count of a cell under a label. S2IX_NO_CELL, S2IX_NO_LABEL. */
uint32_t s2ix_add(s2ix_handle *handle, uint64_t cell, uint32_t label, uint32_t copies, size_t *number);

/* Adds the count of each row to that of its cell under its label, as one change. Rows come in any order, repeated or not; one of count 0
   adds nothing. Each row keeps its cell: unlike s2ix_add_union, the call normalises nothing. All are added, or none. If a row's cell or label
   is wrong, *number is the place of the first such row, counted from 0. O(m log m) for m rows, besides the time of an edit.
   S2IX_NO_CELL, S2IX_NO_LABEL. */
uint32_t s2ix_add_all(s2ix_handle *handle, const s2ix_row *rows, size_t len, size_t *number);

/* Takes copies from the count of a cell under a label. S2IX_NO_CELL, S2IX_NO_LABEL, S2IX_NOT_HELD. */
uint32_t s2ix_remove(s2ix_handle *handle, uint64_t cell, uint32_t label, uint32_t copies, size_t *number);

/* Takes the count of each row from that of its cell under its label, as one change. Rows come in any order, and repeated ones add up; one of
   count 0 takes nothing. All are taken, or none. If a row's cell or label is wrong, *number is the place of the first such row, counted from
   0. For S2IX_NOT_HELD it is the place of the first row that takes more copies than the rows before it leave. O(m log m) for m rows, besides
   the time of an edit, and O(log m) times that for S2IX_NOT_HELD. S2IX_NO_CELL, S2IX_NO_LABEL, S2IX_NOT_HELD. */
uint32_t s2ix_remove_all(s2ix_handle *handle, const s2ix_row *rows, size_t len, size_t *number);

/* Adds one copy under a label for each cell of the normal form of a union: four siblings become their parent, and a cell within another
   is left out; s2ix_add_all adds cells as they are. A wrong label comes before a wrong cell. S2IX_NO_CELL, S2IX_NO_LABEL. */
uint32_t s2ix_add_union(s2ix_handle *handle, const uint64_t *cells, size_t len, uint32_t label, size_t *number);

/* Takes away all copies of a label's pairs. S2IX_NO_LABEL, S2IX_NO_SUCH_LABEL. */
uint32_t s2ix_drop_label(s2ix_handle *handle, uint32_t label, size_t *number);

/* Moves all copies of one label to another, cell by cell. S2IX_NO_LABEL, S2IX_NO_SUCH_LABEL. */
uint32_t s2ix_relabel(s2ix_handle *handle, uint32_t source, uint32_t target, size_t *number);

/* Adds one copy under a label for each cell of a level just outside the label: it overlaps no cell of the label, but shares an edge with a
   cell of the level that overlaps one. S2IX_NO_LABEL, S2IX_NO_SUCH_LABEL, S2IX_TOO_FINE. */
uint32_t s2ix_grow(s2ix_handle *handle, uint32_t label, uint8_t level, size_t *number);

/* Replaces a label's pairs by one copy at each cell of the label's region. S2IX_NO_LABEL, S2IX_NO_SUCH_LABEL. */
uint32_t s2ix_normalise_label(s2ix_handle *handle, uint32_t label, size_t *number);

/* Takes back a change, and leaves those that followed it. The changes that can be undone are numbered, the oldest as 1.
   S2IX_NO_SUCH_CHANGE, S2IX_BELOW_ZERO. */
uint32_t s2ix_revert(s2ix_handle *handle, uint32_t change, size_t *number);

/* Does a change that is given by its entries, in the order of s2ix_change: by rising cell, then label, each pair once. In each, `before` is
   the count that is held, and `after` is another one, which replaces it. A wrong cell or label decides before all else; then S2IX_UNSORTED,
   an entry is not above the one before it; then S2IX_NO_DIFFERENCE, its two counts are equal; and after a closed handle and a full journal
   S2IX_MISMATCH, its count before is not the one that is held. For each of these *number is the place of the first such entry, counted from
   0. No entries are S2IX_NO_CHANGE, after a closed handle and a full journal. O(m) for m entries, besides the time of an edit.
   S2IX_NO_CELL, S2IX_NO_LABEL, S2IX_UNSORTED, S2IX_NO_DIFFERENCE, S2IX_MISMATCH. */
uint32_t s2ix_record(s2ix_handle *handle, const s2ix_entry *entries, size_t len, size_t *number);

/* Takes the last change back; *number is how many pairs it had. It takes the time of an edit. S2IX_CLOSED, S2IX_NOTHING_TO_UNDO,
   S2IX_OUT_OF_MEMORY. */
uint32_t s2ix_undo(s2ix_handle *handle, size_t *number);

/* Redoes the change that was undone last, in the time of s2ix_undo. S2IX_CLOSED, S2IX_NOTHING_TO_REDO, S2IX_OUT_OF_MEMORY. */
uint32_t s2ix_redo(s2ix_handle *handle, size_t *number);

/* Does the changes of a journal, which another store did from the same pairs on. Each can be undone by itself, and what could be redone is
   gone, unless there are no changes. All are done, or none. *number is how many pairs have another count than before. What is wrong first
   decides: a line of the journal under the store's limits, S2IX_JOURNAL_FULL, or a change; *place and *entry tell of it as in s2ix_replay.
   O(b + m log n) for b bytes and m entries, besides the time of an edit. S2IX_CLOSED, S2IX_NO_JOURNAL, S2IX_JOURNAL_FULL, S2IX_MISMATCH,
   S2IX_TOO_MANY_COPIES, S2IX_TOO_MANY_PAIRS, S2IX_OUT_OF_MEMORY. */
uint32_t s2ix_apply(s2ix_handle *handle, const uint8_t *journal, size_t len, size_t *number, size_t *place, size_t *entry);

/* Makes one change of the last ones that can be undone, so many of them: one undo then takes them back together. *number is how many pairs
   have another count than before them; if none has, the changes are gone. What is held stays, and so does what can be redone.
   With `last` 0 or 1 nothing changes, and it does not allocate. O(m log k) for m entries in k changes. S2IX_CLOSED, S2IX_TOO_FEW_CHANGES,
   S2IX_OUT_OF_MEMORY. */
uint32_t s2ix_join(s2ix_handle *handle, size_t last, size_t *number);

/* Keeps what is held and drops all changes: nothing is left to undo or redo. O(k) for k changes. S2IX_CLOSED. */
uint32_t s2ix_forget(s2ix_handle *handle);

/* Drops all changes that can be undone but the newest, at most so many: a full journal gets room, and the last steps can still be undone.
   What is held stays, and so does what can be redone. O(k) for k changes. S2IX_CLOSED. */
uint32_t s2ix_forget_older(s2ix_handle *handle, size_t newest);

/* Drops all pairs and all changes, and keeps the limits: nothing is left to undo or redo. O(n). S2IX_CLOSED, S2IX_OUT_OF_MEMORY. */
uint32_t s2ix_clear(s2ix_handle *handle);

/* The pairs whose cells contain a leaf, the innermost cell first, the labels of one cell rising. It does not allocate. O(log n + k) for k
   pairs. S2IX_CLOSED, S2IX_NO_CELL, S2IX_NO_ROOM. */
uint32_t s2ix_at(s2ix_handle *handle, uint64_t leaf, s2ix_row *rows, size_t room, size_t *number);

/* The pairs over each of some leaves: those that s2ix_at puts for the first leaf, then those for the next, and so on. The leaves come in any
   order, repeated or not; it is quickest if they rise. If there are 4,096 leaves or more in no order, the index has 1,024 ranges or more, and
   at most 8 pairs lie over a leaf on average, the call sorts leaves first, 8,192 to 65,536 at once. For that it allocates mostly 1 to 12 MiB, at
   most 22; if this is refused, it only takes longer. In all other cases it does not allocate. O(log n + k) for each leaf under k pairs. Of the
   leaves that it looks for, up to 63, or those that are sorted, may not be answered, since room ends. S2IX_CLOSED, S2IX_NO_CELL,
   S2IX_NO_ROOM. */
uint32_t s2ix_at_each(s2ix_handle *handle, const uint64_t *leaves, size_t len, size_t *ends, size_t ends_room, s2ix_row *rows, size_t room,
                      size_t *answered);

/* The label of each of these pairs: one comes again if a leaf lies in several of its cells. To sort leaves it allocates mostly less
   than 5 MiB, at most 7. The same statuses. */
uint32_t s2ix_labels_at_each(s2ix_handle *handle, const uint64_t *leaves, size_t len, size_t *ends, size_t ends_room, uint32_t *labels,
                             size_t room, size_t *answered);

/* The pairs that share a leaf with some of the cells, which come in any order, repeated or not. Each pair comes once, by first shared leaf,
   then falling level, then rising label. O(k + r + t log n) for k pairs over r ranges and t cells, and O(t log t) to sort them unless they
   rise. Only the cells want memory, and none if they are at most 1,024 and follow one another. S2IX_CLOSED, S2IX_NO_CELL, S2IX_NO_ROOM,
   S2IX_OUT_OF_MEMORY. */
uint32_t s2ix_meet(s2ix_handle *handle, const uint64_t *cells, size_t len, s2ix_row *rows, size_t room, size_t *number);

/* A page of that list: its pairs from the place `from` on, counted from 0, as many as there is room for. It never returns S2IX_NO_ROOM.
   *number is how many pairs are put: less than `room` only if the list ends there. An edit may move the places. The call goes along the
   list from its start up to the last pair that it puts. So it costs what s2ix_meet would if the list ended there, and the first few of many
   pairs come quickly. S2IX_CLOSED, S2IX_NO_CELL, S2IX_OUT_OF_MEMORY. */
uint32_t s2ix_meet_from(s2ix_handle *handle, const uint64_t *cells, size_t len, size_t from, s2ix_row *rows, size_t room, size_t *number);

/* The labels of the pairs that s2ix_meet puts: each once, rising. It costs what s2ix_meet does, and O(m log m) for m pairs. The same
   statuses. */
uint32_t s2ix_labels(s2ix_handle *handle, const uint64_t *cells, size_t len, uint32_t *labels, size_t room, size_t *number);

/* The pairs that meet each of some targets: those that s2ix_meet puts for the first target, then those for the next, and so on. Target k has
   the cells from the place bounds[k] on, and before the place bounds[k + 1]; it may have none. So for m targets there are m + 1 bounds: `len`
   is the number of bounds, and with one or none there is no target. Cells after the last bound belong to no target. If a target's bounds
   fall, or pass the end of `cells`, the status is S2IX_NO_SPAN. Each target costs what s2ix_meet does. S2IX_CLOSED, S2IX_NO_SPAN,
   S2IX_NO_CELL, S2IX_NO_ROOM, S2IX_OUT_OF_MEMORY. */
uint32_t s2ix_meet_each(s2ix_handle *handle, const uint64_t *cells, size_t cell_count, const size_t *bounds, size_t len, size_t *ends,
                        size_t ends_room, s2ix_row *rows, size_t room, size_t *answered);

/* The same for labels: those that s2ix_labels puts for each target. */
uint32_t s2ix_labels_each(s2ix_handle *handle, const uint64_t *cells, size_t cell_count, const size_t *bounds, size_t len, size_t *ends,
                          size_t ends_room, uint32_t *labels, size_t room, size_t *answered);

/* The region of a label: the normal union of its cells, rising. It takes what s2ix_of_label does, and O(m log m) for m pairs.
   S2IX_CLOSED, S2IX_NO_LABEL, S2IX_NO_ROOM, S2IX_OUT_OF_MEMORY. */
uint32_t s2ix_region(s2ix_handle *handle, uint32_t label, uint64_t *cells, size_t room, size_t *number);

/* The pairs of a label, by rising cell. It does not allocate. All pairs lie in parts of a few hundred, each with a filter of its labels:
   O(p + k) for p parts and the k pairs of those that the filters don't rule out, mostly the parts that have the label, and at worst all.
   S2IX_CLOSED, S2IX_NO_LABEL, S2IX_NO_ROOM. */
uint32_t s2ix_of_label(s2ix_handle *handle, uint32_t label, s2ix_row *rows, size_t room, size_t *number);

/* The labels that are held, rising, each once. It does not allocate if no pair is held. O(n log n). S2IX_CLOSED, S2IX_NO_ROOM,
   S2IX_OUT_OF_MEMORY. */
uint32_t s2ix_held_labels(s2ix_handle *handle, s2ix_held_label *labels, size_t room, size_t *number);

/* A page of all pairs, in rising order of cell, then label: those from the place `from` on, counted from 0, as many as there is room for.
   It never returns S2IX_NO_ROOM. *number is how many pairs are put: 0 if there is none at the place. An edit moves the places of the pairs
   after those that it changes. It looks for the first pair, and goes along from there: O(log n + k) for k pairs put, and O(log n) again for
   each few hundred of them. S2IX_CLOSED. */
uint32_t s2ix_pairs(s2ix_handle *handle, size_t from, s2ix_row *rows, size_t room, size_t *number);

/* How many copies of a cell are held under a label: 0 if the pair is not held. O(log n). S2IX_CLOSED, S2IX_NO_CELL, S2IX_NO_LABEL. */
uint32_t s2ix_count(s2ix_handle *handle, uint64_t cell, uint32_t label, uint32_t *count);

/* How many pairs are held. O(1). S2IX_CLOSED. */
uint32_t s2ix_len(s2ix_handle *handle, size_t *number);

/* The sum of the counts. O(n). S2IX_CLOSED. */
uint32_t s2ix_copies(s2ix_handle *handle, uint64_t *copies);

/* How many changes can be undone, and how many redone. O(1). S2IX_CLOSED. */
uint32_t s2ix_done_count(s2ix_handle *handle, size_t *number);
uint32_t s2ix_undone_count(s2ix_handle *handle, size_t *number);

/* The entries of a change by its number, as in s2ix_revert: by rising cell, then label. It does not allocate.
   O(k) for k entries. S2IX_CLOSED, S2IX_NO_SUCH_CHANGE, S2IX_NO_ROOM. */
uint32_t s2ix_change(s2ix_handle *handle, uint32_t change, s2ix_entry *entries, size_t room, size_t *number);

/* The entries that lead from what one store holds to what another does: exactly the pairs whose counts differ, by rising cell, then label,
   with the count in either store. Neither changes, and their changes are not looked at. O(n + m) for the n and m pairs that they hold.
   S2IX_CLOSED, also if only one of the handles is closed; S2IX_NO_ROOM, S2IX_OUT_OF_MEMORY. */
uint32_t s2ix_difference(s2ix_handle *before, s2ix_handle *after, s2ix_entry *entries, size_t room, size_t *number);

/* On how many faces, 0 to 6, the last accepted edit (s2ix_record too), undo, redo or s2ix_apply changed pairs; 0 before the first of these.
   O(1). S2IX_CLOSED. */
uint32_t s2ix_faces_rebuilt(s2ix_handle *handle, size_t *number);

/* How many ranges of leaves there are over which the same pairs lie: at least 1. O(1). S2IX_CLOSED. */
uint32_t s2ix_range_count(s2ix_handle *handle, size_t *number);

/* The range that has a leaf: its place, counted from 0, the number of its first leaf, and the first leaf number after it. Its
   pairs are those that s2ix_at puts for *start. The next range begins with *limit, unless that is the end of all leaves,
   0xc000000000000001. All three are 0 if the call is refused. O(log n). S2IX_CLOSED, S2IX_NO_CELL. */
uint32_t s2ix_find(s2ix_handle *handle, uint64_t leaf, size_t *place, uint64_t *start, uint64_t *limit);

/* The range at a place, counted from 0: the number of its first leaf, the first leaf number after it, and whether no pair lies over it. If
   the call is refused, both numbers are 0 and *is_empty is true. An edit may move the places of ranges. O(log n). S2IX_CLOSED,
   S2IX_NO_RANGE. */
uint32_t s2ix_range(s2ix_handle *handle, size_t place, uint64_t *start, uint64_t *limit, bool *is_empty);

/* A page of all ranges, in their order: those from the place `from` on, as many as there is room for. It never returns S2IX_NO_ROOM.
   *number is how many ranges are put: 0 if there is none at the place. A range begins with the `limit` of the one before it. It looks for the
   first range, and goes along from there: O(log n + k) for k ranges put, and O(log n) again for each few hundred of them. It does not
   allocate. S2IX_CLOSED. */
uint32_t s2ix_ranges(s2ix_handle *handle, size_t from, s2ix_leaf_range *ranges, size_t room, size_t *number);

/* Of the pairs over the range at a place, those whose cells begin at the leaf number `from` or later, the innermost cell first, the labels
   of one cell rising. If `from` is 0, these are all of them. If `from` is the *limit of an earlier range, these are the pairs that do not
   also lie over the earlier range. So a caller that goes up the ranges, each time with the *limit of the range before, gets each pair once.
   It does not allocate. O(log n + k) for k pairs. S2IX_CLOSED, S2IX_NO_RANGE, S2IX_NO_ROOM. */
uint32_t s2ix_contents(s2ix_handle *handle, size_t place, uint64_t from, s2ix_row *rows, size_t room, size_t *number);

/* The place of a range that has a pair over it: s2ix_next_full looks for the first from the place `from` on, s2ix_previous_full for the
   last before the place `before`. If there is none, the status is S2IX_NO_RANGE and *place is 0. Of two ranges side by side, one at least
   has a pair over it. O(log n). S2IX_CLOSED, S2IX_NO_RANGE. */
uint32_t s2ix_next_full(s2ix_handle *handle, size_t from, size_t *place);
uint32_t s2ix_previous_full(s2ix_handle *handle, size_t before, size_t *place);

/* The dump of what is held, as bytes (FORMATS.md). O(n). S2IX_CLOSED, S2IX_NO_ROOM, S2IX_OUT_OF_MEMORY. */
uint32_t s2ix_dump(s2ix_handle *handle, uint8_t *text, size_t room, size_t *number);

/* The journal of the changes that can be undone, the oldest first, as bytes (FORMATS.md). O(n) for n entries. S2IX_CLOSED,
   S2IX_NO_ROOM, S2IX_OUT_OF_MEMORY. */
uint32_t s2ix_journal(s2ix_handle *handle, uint8_t *text, size_t room, size_t *number);

/* The journal of the changes that can be undone from the one with a number on, as in s2ix_revert: what a store asks for that has done
   those before it. If the number is one more than that of the last, it is the journal of no changes. O(n) for n entries in these changes.
   S2IX_CLOSED, S2IX_NO_SUCH_CHANGE, S2IX_NO_ROOM, S2IX_OUT_OF_MEMORY. */
uint32_t s2ix_journal_from(s2ix_handle *handle, uint32_t change, uint8_t *text, size_t room, size_t *number);

/* The export of what is held: one line of compact JSON with no line feed (FORMATS.md). O(n), some 200 bytes a pair while it is made.
   S2IX_CLOSED, S2IX_NO_ROOM, S2IX_OUT_OF_MEMORY. */
uint32_t s2ix_export(s2ix_handle *handle, uint8_t *text, size_t room, size_t *number);

/* Carries out one line of a script (FORMATS.md), given without its line feed, and puts its answer to the front of the buffer, as
   bytes: `ok N`, `no NAME`, or the lines of a query, each with its line feed. A blank line or a comment has no answer. The answer of
   a refused line is `no NAME`, and its status is S2IX_DONE too. An edit, an undo, a redo and a forget want room for 32 bytes; any
   other line changes nothing, and wants room for its answer. With less room nothing is done: the status is S2IX_NO_ROOM, and *number is the
   room that the line wants. It costs what the line's own call does, and O(m) for m bytes of line and answer. S2IX_CLOSED, S2IX_NO_ROOM,
   S2IX_OUT_OF_MEMORY. */
uint32_t s2ix_line(s2ix_handle *handle, const uint8_t *line, size_t len, uint8_t *answer, size_t room, size_t *number);

/* What a line of a script would do. */
enum s2ix_kind_of_line {
    S2IX_LINE_NOTHING = 0, /* it is blank, a comment, or refused whatever is held */
    S2IX_LINE_QUESTION = 1,
    S2IX_LINE_EDIT = 2,
    S2IX_LINE_UNDO = 3,
    S2IX_LINE_REDO = 4,
    S2IX_LINE_FORGET = 5
};

/* Tells what a line of a script would do, given without its line feed: *kind is one of S2IX_LINE_NOTHING and so on. It takes no handle. O(m)
   for m bytes, and O(m log m) if the line has a list of cells. Only such a line wants memory. S2IX_OUT_OF_MEMORY: then *kind is 0. */
uint32_t s2ix_line_kind(const uint8_t *line, size_t len, uint8_t *kind);

/* Cells, without a handle. Each call takes O(1) if nothing else is said, and only s2ix_cell_border allocates. A call that gives a cell, a
   level or a face gives 0 if it is refused. A call that returns a bool returns false if a number is no cell's. */

/* A cell as a square of the grid of its level on its face. */
typedef struct s2ix_square {
    uint32_t i;          /* the column, in squares of the cell's own level */
    uint32_t j;          /* the row */
    uint8_t face;        /* 0 to 5 */
    uint8_t level;       /* 0 to 30 */
    uint8_t orientation; /* bit 0: i and j are swapped, bit 1: both are inverted */
} s2ix_square;

/* Whether a number is a cell's. */
bool s2ix_cell_is_valid(uint64_t cell);

/* The cell that a text spells: 1 to 16 hexadecimal digits of either case; those missing on the right are zeros. S2IX_NO_CELL. */
uint32_t s2ix_cell_from_token(const uint8_t *text, size_t len, uint64_t *cell);

/* A cell's token, as *number bytes, 1 to 16, with no zero after them. If the call is refused, `text` is as it was. S2IX_NO_CELL. */
uint32_t s2ix_cell_to_token(uint64_t cell, uint8_t text[16], size_t *number);

/* A cell's path for people, as 0/32: the face, a slash, and the child positions from level 1 down, 2 to 32 bytes. S2IX_NO_CELL. */
uint32_t s2ix_cell_path(uint64_t cell, uint8_t text[32], size_t *number);

/* The ancestor of a cell at a level: the cell itself at its own level. S2IX_NO_CELL, also for a finer level. */
uint32_t s2ix_cell_parent(uint64_t cell, uint8_t level, uint64_t *parent);

/* The child at a position, 0 to 3 along the curve. S2IX_NO_CELL, also for a leaf and for another position. */
uint32_t s2ix_cell_child(uint64_t cell, uint8_t position, uint64_t *child);

/* The level, 0 for a whole face to 30 for a leaf. S2IX_NO_CELL. */
uint32_t s2ix_cell_level(uint64_t cell, uint8_t *level);

/* The face, 0 to 5. S2IX_NO_CELL. */
uint32_t s2ix_cell_face(uint64_t cell, uint8_t *face);

/* Whether a cell is of level 30. */
bool s2ix_cell_is_leaf(uint64_t cell);

/* The cell's first leaf along the curve, and its last. S2IX_NO_CELL. */
uint32_t s2ix_cell_range_min(uint64_t cell, uint64_t *leaf);
uint32_t s2ix_cell_range_max(uint64_t cell, uint64_t *leaf);

/* Whether each leaf of the other cell is one of the cell's. */
bool s2ix_cell_contains(uint64_t cell, uint64_t other);

/* Whether two cells share a leaf: then one contains the other. */
bool s2ix_cell_intersects(uint64_t cell, uint64_t other);

/* The level of the smallest cell that contains both. S2IX_NO_CELL, also for cells of two faces. */
uint32_t s2ix_cell_common_level(uint64_t cell, uint64_t other, uint8_t *level);

/* The next cell of its level along the curve; the first of face 0 comes after the last of face 5. S2IX_NO_CELL. */
uint32_t s2ix_cell_next(uint64_t cell, uint64_t *next);

/* The four cells of its level that share an edge with a cell: down, right, up, left. If the call is refused, `cells` is as it was.
   S2IX_NO_CELL. */
uint32_t s2ix_cell_edge_neighbors(uint64_t cell, uint64_t cells[4]);

/* The cells of a level outside a cell that share an edge with a cell of that level inside it: each once, rising, at most 1024. O(n log n)
   for n cells. S2IX_NO_CELL, S2IX_COARSER, S2IX_TOO_FINE, S2IX_NO_ROOM, S2IX_OUT_OF_MEMORY. */
uint32_t s2ix_cell_border(uint64_t cell, uint8_t level, uint64_t *cells, size_t room, size_t *number);

/* The square of a cell. If the call is refused, *square is as it was. S2IX_NO_CELL. */
uint32_t s2ix_cell_to_face_ij(uint64_t cell, s2ix_square *square);

/* The cell of a square. S2IX_NO_CELL, for a face above 5, a level above 30, or a column or row of 2^level or more. */
uint32_t s2ix_cell_from_face_ij(uint8_t face, uint32_t i, uint32_t j, uint8_t level, uint64_t *cell);

/* Unions of cells, without a handle: sets of leaves, as lists of cells in any order, repeated or not. A list that a call gives is normal:
   it rises, no cell lies within another, and no four are all the children of one. Each call first normalises its lists, in O(n log n) for n
   cells. S2IX_NO_CELL, S2IX_OUT_OF_MEMORY; S2IX_NO_ROOM if there is a buffer. */

/* The normal list of the same leaves: never longer than the list. */
uint32_t s2ix_union_normalise(const uint64_t *cells, size_t len, uint64_t *out, size_t room, size_t *number);

/* The leaves whose numbers are at least `start` and below `limit`: at most 184 cells. Bounds are odd; equal bounds give no cells.
   S2IX_NO_SPAN, S2IX_NO_ROOM, S2IX_OUT_OF_MEMORY. */
uint32_t s2ix_union_from_leaves(uint64_t start, uint64_t limit, uint64_t *out, size_t room, size_t *number);

/* The leaves of either union, of both, and of the first without those of the second. */
uint32_t s2ix_union_union(const uint64_t *first, size_t first_len, const uint64_t *second, size_t second_len, uint64_t *out, size_t room,
                          size_t *number);
uint32_t s2ix_union_intersection(const uint64_t *first, size_t first_len, const uint64_t *second, size_t second_len, uint64_t *out, size_t room,
                                 size_t *number);
uint32_t s2ix_union_difference(const uint64_t *first, size_t first_len, const uint64_t *second, size_t second_len, uint64_t *out, size_t room,
                               size_t *number);

/* Whether each leaf of a cell is one of the union's, and whether some leaf is; *answer is false if the call is refused. */
uint32_t s2ix_union_contains(const uint64_t *cells, size_t len, uint64_t cell, bool *answer);
uint32_t s2ix_union_intersects(const uint64_t *cells, size_t len, uint64_t cell, bool *answer);

/* How many leaves the union has; 0 if the call is refused. */
uint32_t s2ix_union_leaf_count(const uint64_t *cells, size_t len, uint64_t *count);

#ifdef __cplusplus
}
#endif

#endif
