/* Takes a store of some 20,000 pairs through the states that a store can be in, and asks it in each of them. tests/costs has Callgrind count
   the instructions of each call of `counted`. For each of them the program prints a line: what was asked, a tab, and the state. It ends with
   1 if an answer was wrong, and says at which line. */
#include "checks.h"
#include "s2ix.h"

#include <stdio.h>

/* Each label but the last has a group of neighbours, and the last one a cell of each group: so each part has it. */
enum { GROUPS = 400, NEIGHBOURS = 50, HELD = GROUPS * (NEIGHBOURS + 1), OF_NEIGHBOURS = 201, IN_ALL_PARTS = GROUPS };
/* Labels that come and go; and one that no pair ever has, unless pairs are moved to it. */
enum { COMES = 1000, ROUNDS = 8, ADDED = 8, MISSING = 1000000000 };
enum { PAIRS = 1000000, COPIES = 9, CHANGES = 1000, ROOM = 1 << 21, ASKED = 100, CELLS = 8 };
/* A page, and where it begins. */
enum { PAGE = 256, FROM = 5000 };
/* So many labels are put on face 0, over all groups there. */
enum { ON_FACE = 20000 };

static s2ix_row rows[HELD], found[HELD];
static s2ix_leaf_range ranges[PAGE];
static uint64_t cells[HELD];
static uint8_t before[ROOM], after[ROOM], journal[ROOM];
static size_t before_len, after_len, journal_len, number, place, entry;

/* A cell of a group, of level 10: those of a group follow each other along the curve, and the groups are spread over the six faces. */
static uint64_t cell_of(unsigned group, unsigned neighbour) { return (2 * (15728 * (uint64_t)group + neighbour) + 1) << 40; }

/* A call by a label, or by cells alone: it returns a status, and sets `number`. */
typedef uint32_t call(s2ix_handle *handle, uint32_t label);

#define CALL(name) static uint32_t name(s2ix_handle *handle, uint32_t label)

CALL(search) { return s2ix_of_label(handle, label, found, HELD, &number); }
CALL(region) { return s2ix_region(handle, label, cells, HELD, &number); }
CALL(drop) { return s2ix_drop_label(handle, label, &number); }
CALL(relabel) { return s2ix_relabel(handle, label, MISSING, &number); }
CALL(grow) { return s2ix_grow(handle, label, 10, &number); }
CALL(normalise) { return s2ix_normalise_label(handle, label, &number); }

/* Asks for the pairs over a leaf of every fourth group, one leaf after the other. */
CALL(ask_leaves) {
    uint32_t status = label;
    size_t pairs = 0;
    for (unsigned asked = 0; asked < ASKED && status == S2IX_DONE; asked++) {
        status = s2ix_at(handle, cell_of(4 * asked + 1, 25) + 1, found, HELD, &number);
        pairs += number;
    }
    number = pairs;
    return status;
}

/* The same for eight neighbours of each of these groups. */
CALL(ask_targets) {
    uint32_t status = label;
    size_t pairs = 0;
    for (unsigned asked = 0; asked < ASKED && status == S2IX_DONE; asked++) {
        for (unsigned k = 0; k < CELLS; k++) cells[k] = cell_of(4 * asked + 1, 20 + k);
        status = s2ix_meet_from(handle, cells, CELLS, 0, found, HELD, &number);
        pairs += number;
    }
    number = pairs;
    return status;
}

CALL(page_of_pairs) { return (void)label, s2ix_pairs(handle, FROM, found, PAGE, &number); }
CALL(page_of_ranges) { return (void)label, s2ix_ranges(handle, FROM, ranges, PAGE, &number); }

#define FACE (UINT64_C(1) << 60)
CALL(add_on_face) { return s2ix_add(handle, FACE, label, 1, &number); }
CALL(remove_on_face) { return s2ix_remove(handle, FACE, label, 1, &number); }

/* Makes a call, whose instructions Callgrind counts. */
uint32_t counted(call *made, s2ix_handle *handle, uint32_t label) { return made(handle, label); }

/* The same, and prints what was asked in which state. */
static void count(const char *asked, const char *state, call *made, s2ix_handle *handle, uint32_t label, uint32_t status) {
    EXPECT(counted(made, handle, label), status);
    printf("%s\t%s\n", asked, state);
}

static void find(const char *asked, const char *state, s2ix_handle *handle, uint32_t label, size_t pairs) {
    count(asked, state, search, handle, label, S2IX_DONE);
    EXPECT(number, pairs);
}

/* Asks a store by labels, by cells and for pages. Label 0 has so many pairs; if none, it had some before. */
static void ask(s2ix_handle *handle, const char *state, size_t of_zero) {
    find("no pair", state, handle, MISSING, 0);
    find(of_zero ? "neighbours" : "let through", state, handle, 0, of_zero);
    find("neighbours", state, handle, OF_NEIGHBOURS, NEIGHBOURS);
    find("all parts", state, handle, IN_ALL_PARTS, GROUPS);
    count("leaves", state, ask_leaves, handle, 0, S2IX_DONE);
    EXPECT(number, ASKED);
    count("targets", state, ask_targets, handle, 0, S2IX_DONE);
    EXPECT(number, ASKED * CELLS);
    count("pairs", state, page_of_pairs, handle, 0, S2IX_DONE);
    EXPECT(number, PAGE);
    count("ranges", state, page_of_ranges, handle, 0, S2IX_DONE);
    EXPECT(number, PAGE);
}

/* Regions and edits of a label that no pair has, and of one that neighbours have; edits are undone. */
static void edit_by_label(s2ix_handle *handle) {
    static const struct {
        const char *name;
        call *edit;
    } edits[] = {{"drop", drop}, {"relabel", relabel}, {"grow", grow}, {"normalise", normalise}};
    count("no pair", "region", region, handle, MISSING, S2IX_DONE);
    count("region", "a dump", region, handle, OF_NEIGHBOURS, S2IX_DONE);
    for (size_t k = 0; k < sizeof edits / sizeof *edits; k++) {
        count("no pair", edits[k].name, edits[k].edit, handle, MISSING, S2IX_NO_SUCH_LABEL);
        count(edits[k].name, "a dump", edits[k].edit, handle, OF_NEIGHBOURS, S2IX_DONE);
        EXPECT(s2ix_undo(handle, &number), S2IX_DONE);
    }
}

/* Edits pairs of a cell with many labels over many parts: the first of its labels, one in the middle and the last, alone and beside a copy. */
static void edit_over_parts(void) {
    static const unsigned asked[] = {0, ON_FACE / 2, ON_FACE};
    s2ix_handle handle = {0}, copy = {0};
    EXPECT(s2ix_load(&handle, before, before_len, PAIRS, COPIES, 2 * ON_FACE, &place), S2IX_DONE);
    for (unsigned k = 0; k <= ON_FACE; k++) EXPECT(add_on_face(&handle, COMES + 2 * k), S2IX_DONE);
    for (size_t k = 0; k < sizeof asked / sizeof *asked; k++) {
        count("pair over parts", "added", add_on_face, &handle, COMES + 2 * asked[k] + 1, S2IX_DONE);
        count("pair over parts", "removed", remove_on_face, &handle, COMES + 2 * asked[k], S2IX_DONE);
        EXPECT(s2ix_copy(&handle, &copy), S2IX_DONE);
        count("pair over parts, and a copy", "added", add_on_face, &handle, COMES + 2 * asked[k], S2IX_DONE);
        s2ix_close(&copy);
    }
    s2ix_close(&handle);
}

/* Adds a pair of a new label beside each group, then drops label 0, step by step. */
static void edit_singly(s2ix_handle *handle) {
    for (unsigned group = 0; group < GROUPS; group++) EXPECT(s2ix_add(handle, cell_of(group, NEIGHBOURS), COMES + group, 1, &number), S2IX_DONE);
    EXPECT(s2ix_drop_label(handle, 0, &number), S2IX_DONE);
}

static void undo_all(s2ix_handle *handle) {
    while (s2ix_undo(handle, &number) == S2IX_DONE) continue;
}

static void redo_all(s2ix_handle *handle) {
    while (s2ix_redo(handle, &number) == S2IX_DONE) continue;
}

/* Takes all neighbours of three groups in four at once, but for label 0, which is not held then: so parts grow short. */
static void take_most(s2ix_handle *handle) {
    size_t len = 0;
    for (size_t k = 0; k < HELD; k++)
        if (rows[k].label != 0 && rows[k].label != IN_ALL_PARTS && rows[k].label % 4 != 1) found[len++] = rows[k];
    EXPECT(s2ix_remove_all(handle, found, len, &number), S2IX_DONE);
}

/* Adds pairs of new labels to each group, and undoes that, several times over; searches once in between, and asks at the end. */
static void come_and_go(s2ix_handle *handle) {
    for (unsigned round = 1; round <= ROUNDS; round++) {
        for (unsigned k = 0; k < GROUPS * ADDED; k++)
            found[k] = (s2ix_row){cell_of(k / ADDED, NEIGHBOURS + k % ADDED), COMES + GROUPS * ADDED * round + k, 1};
        EXPECT(s2ix_add_all(handle, found, GROUPS * ADDED, &number), S2IX_DONE);
        if (round == 1) {
            find("let through", "many labels", handle, MISSING, 0);
            find("let through", "many labels", handle, 0, 0);
        }
        EXPECT(s2ix_undo(handle, &number), S2IX_DONE);
    }
    ask(handle, "labels come and gone", 0);
}

/* The states that texts lead to: `before` and `after` are dumps, and `journal` leads from one to the other. */
static void ask_of_texts(void) {
    s2ix_handle handle = {0};
    EXPECT(s2ix_replay(&handle, before, before_len, journal, journal_len, PAIRS, COPIES, CHANGES, &place, &entry), S2IX_DONE);
    ask(&handle, "a journal replayed", 0);
    EXPECT(s2ix_rewind(&handle, after, after_len, journal, journal_len, PAIRS, COPIES, CHANGES, &place, &entry), S2IX_DONE);
    ask(&handle, "a journal rewound", NEIGHBOURS);
    EXPECT(s2ix_resume(&handle, after, after_len, journal, journal_len, PAIRS, COPIES, CHANGES, &place, &entry), S2IX_DONE);
    ask(&handle, "a journal resumed", 0);
    EXPECT(s2ix_load(&handle, before, before_len, PAIRS, COPIES, CHANGES, &place), S2IX_DONE);
    EXPECT(s2ix_apply(&handle, journal, journal_len, &number, &place, &entry), S2IX_DONE);
    ask(&handle, "a journal applied", 0);
    s2ix_close(&handle);
}

int main(void) {
    s2ix_handle handle = {0}, copy = {0};
    for (unsigned k = 0; k < HELD; k++) {
        const unsigned group = k % GROUPS, neighbour = k / GROUPS;
        rows[k] = neighbour < NEIGHBOURS ? (s2ix_row){cell_of(group, neighbour), group, 1} : (s2ix_row){cell_of(group, 0), IN_ALL_PARTS, 1};
    }
    EXPECT(s2ix_open(&handle, PAIRS, COPIES, CHANGES), S2IX_DONE);
    EXPECT(s2ix_add_all(&handle, rows, HELD, &number), S2IX_DONE);
    ask(&handle, "pairs at once", NEIGHBOURS);
    EXPECT(s2ix_dump(&handle, before, ROOM, &before_len), S2IX_DONE);
    EXPECT(s2ix_load(&handle, before, before_len, PAIRS, COPIES, CHANGES, &place), S2IX_DONE);
    ask(&handle, "a dump", NEIGHBOURS);
    edit_by_label(&handle);
    edit_over_parts();
    edit_singly(&handle);
    ask(&handle, "single edits", 0);
    EXPECT(s2ix_dump(&handle, after, ROOM, &after_len), S2IX_DONE);
    EXPECT(s2ix_journal(&handle, journal, ROOM, &journal_len), S2IX_DONE);
    ask_of_texts();
    undo_all(&handle);
    ask(&handle, "edits undone", NEIGHBOURS);
    redo_all(&handle);
    ask(&handle, "edits redone", 0);
    EXPECT(s2ix_copy(&handle, &copy), S2IX_DONE);
    ask(&copy, "a copy", 0);
    take_most(&handle);
    ask(&handle, "most pairs taken", 0);
    EXPECT(s2ix_undo(&handle, &number), S2IX_DONE);
    ask(&handle, "most pairs taken and back", 0);
    come_and_go(&handle);
    s2ix_close(&handle);
    s2ix_close(&copy);
    return fault_count() != 0;
}
