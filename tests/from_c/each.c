/* Calls the exports that answer many leaves or targets at once, with their refusals, and says at which lines an answer was wrong. The answers
   are compared with those of the calls that take one leaf or one target. */
#include "checks.h"
#include "s2ix.h"

#include <stdint.h>
#include <string.h>

#define COUNT(list) (sizeof(list) / sizeof *(list))

/* Face 0 and its first two children, and a number that is no cell's. */
static const uint64_t face = 0x1000000000000000, first = 0x0400000000000000, second = 0x0c00000000000000, no_cell = 6;

enum { MANY = 16, FREE = 7, AT = 0, LABELS_AT = 1, MEET = 2, LABELS = 3, CALLS = 4 };

/* What a call is asked: leaves, or cells of targets with their bounds. `len` is how many leaves or bounds there are. */
typedef struct question {
    const uint64_t *numbers;
    size_t count;
    const size_t *bounds;
    size_t len;
} question;

/* What it answers. */
typedef struct answer {
    uint32_t status;
    size_t answered, ends[MANY];
    s2ix_row rows[MANY];
    uint32_t labels[MANY];
} answer;

static bool is_of_leaves(int call) { return call == AT || call == LABELS_AT; }

/* How many leaves or targets are asked for. */
static size_t many_of(int call, question asked) { return is_of_leaves(call) || asked.len == 0 ? asked.len : asked.len - 1; }

static bool is_of_labels(int call) { return call == LABELS_AT || call == LABELS; }

/* Asks, with so much room for ends and for items; nothing is written past it. */
static answer ask(s2ix_handle *handle, int call, question asked, size_t ends_room, size_t room) {
    answer given;
    memset(&given, FREE, sizeof given);
    const size_t free_end = given.ends[0];
    switch (call) {
    case AT:
        given.status = s2ix_at_each(handle, asked.numbers, asked.len, given.ends, ends_room, given.rows, room, &given.answered);
        break;
    case LABELS_AT:
        given.status = s2ix_labels_at_each(handle, asked.numbers, asked.len, given.ends, ends_room, given.labels, room, &given.answered);
        break;
    case MEET:
        given.status = s2ix_meet_each(handle, asked.numbers, asked.count, asked.bounds, asked.len, given.ends, ends_room, given.rows, room,
                                      &given.answered);
        break;
    default:
        given.status = s2ix_labels_each(handle, asked.numbers, asked.count, asked.bounds, asked.len, given.ends, ends_room, given.labels, room,
                                        &given.answered);
    }
    for (size_t k = ends_room; k < MANY; k++) EXPECT(given.ends[k], free_end);
    for (size_t k = is_of_labels(call) ? 0 : room; k < MANY; k++) EXPECT(given.rows[k].count, 0x07070707);
    for (size_t k = is_of_labels(call) ? room : 0; k < MANY; k++) EXPECT(given.labels[k], 0x07070707);
    return given;
}

/* The same answer, of which each list is asked for by a call of its own. */
static answer one_by_one(s2ix_handle *handle, int call, question asked) {
    answer all;
    size_t count = 0, number = 0;
    memset(&all, FREE, sizeof all);
    all.answered = many_of(call, asked);
    for (size_t k = 0; k < all.answered; k++) {
        const size_t room = MANY - count;
        if (is_of_leaves(call)) {
            EXPECT(s2ix_at(handle, asked.numbers[k], all.rows + count, room, &number), S2IX_DONE);
            for (size_t at = count; at < count + number; at++) all.labels[at] = all.rows[at].label;
        } else {
            const uint64_t *cells = asked.numbers + asked.bounds[k];
            const size_t len = asked.bounds[k + 1] - asked.bounds[k];
            if (call == MEET) EXPECT(s2ix_meet(handle, cells, len, all.rows + count, room, &number), S2IX_DONE);
            if (call == LABELS) EXPECT(s2ix_labels(handle, cells, len, all.labels + count, room, &number), S2IX_DONE);
        }
        count += number;
        all.ends[k] = count;
    }
    all.status = S2IX_DONE;
    return all;
}

/* How many items are in the lists of the first leaves or targets. */
static size_t items_of(answer all, size_t answered) { return answered == 0 ? 0 : all.ends[answered - 1]; }

/* Looks that the first leaves or targets have their lists, as they have in an answer of all. */
static void expect_front(int line, int call, answer given, answer all, uint32_t status, size_t answered) {
    const size_t items = items_of(all, answered);
    expect(__FILE__, line, given.status, status);
    expect(__FILE__, line, given.answered, answered);
    expect(__FILE__, line, memcmp(given.ends, all.ends, answered * sizeof *all.ends), 0);
    if (is_of_labels(call)) expect(__FILE__, line, memcmp(given.labels, all.labels, items * sizeof *all.labels), 0);
    else expect(__FILE__, line, memcmp(given.rows, all.rows, items * sizeof *all.rows), 0);
}

#define EXPECT_FRONT(call, given, all, status, answered) expect_front(__LINE__, call, given, all, status, answered)

static const uint64_t leaves[] = {0x0800000000000001, 0x3000000000000001, 0x0400000000000001, 0x0400000000000001, 0x1000000000000001};
/* Two cells, none, a face, an empty face, and a cell twice. */
static const uint64_t cells[] = {0x0c00000000000000, 0x0400000000000000, 0x1000000000000000, 0x3000000000000000, 0x0c00000000000000, 0x0c00000000000000};
static const size_t bounds[] = {0, 2, 2, 3, 4, 6};

enum { TARGETS = COUNT(bounds) - 1 };

/* All of these leaves, or all of these targets, but so many of the first. */
static question asked_from(int call, size_t from) {
    question of_leaves = {leaves + from, COUNT(leaves) - from, NULL, COUNT(leaves) - from};
    question of_targets = {cells, COUNT(cells), bounds + from, COUNT(bounds) - from};
    return is_of_leaves(call) ? of_leaves : of_targets;
}

static question asked_of(int call) { return asked_from(call, 0); }

static void open_store(s2ix_handle *handle) {
    size_t number;
    EXPECT(s2ix_open(handle, 10, 10, 10), S2IX_DONE);
    EXPECT(s2ix_add(handle, first, 9, 2, &number), S2IX_DONE);
    EXPECT(s2ix_add(handle, face, 3, 1, &number), S2IX_DONE);
    EXPECT(s2ix_add(handle, first, 4, 1, &number), S2IX_DONE);
    EXPECT(s2ix_add(handle, second, 9, 1, &number), S2IX_DONE);
}

/* Whatever is asked, also what would be refused otherwise. */
static void refused_while_closed(void) {
    s2ix_handle handle = {0};
    const uint64_t no_cells[] = {no_cell, no_cell};
    const size_t falling[] = {2, 1};
    for (int call = 0; call < CALLS; call++) {
        const question wrong[] = {asked_of(call), {no_cells, 2, falling, 2}, {no_cells, 2, falling, 1}, {no_cells, 2, falling, 0}};
        for (size_t k = 0; k < COUNT(wrong); k++) {
            answer given = ask(&handle, call, wrong[k], MANY, MANY);
            EXPECT(given.status, S2IX_CLOSED);
            EXPECT(given.answered, 0);
            EXPECT(given.ends[0] == given.ends[MANY - 1] && given.rows[0].label == 0x07070707 && given.labels[0] == 0x07070707, true);
        }
    }
    EXPECT(handle.is_open, false);
}

/* With each room up to one more than is wanted. */
static void answered(void) {
    s2ix_handle handle = {0};
    const size_t wanted[] = {9, 9, 10, 8}, past = SIZE_MAX;
    open_store(&handle);
    for (int call = 0; call < CALLS; call++) {
        const question asked = asked_of(call);
        const answer all = one_by_one(&handle, call, asked);
        EXPECT(items_of(all, all.answered), wanted[call]);
        for (size_t room = 0; room <= wanted[call] + 1; room++) {
            size_t fit = all.answered;
            while (items_of(all, fit) > room) fit--;
            EXPECT_FRONT(call, ask(&handle, call, asked, all.answered, room), all, fit == all.answered ? S2IX_DONE : S2IX_NO_ROOM, fit);
        }
        for (size_t ends_room = 0; ends_room < all.answered; ends_room++)
            EXPECT_FRONT(call, ask(&handle, call, asked, ends_room, wanted[call]), all, S2IX_NO_ROOM, ends_room);
        /* (one bound is that of no target, so it isn't looked at) */
        const question none[] = {{asked.numbers, asked.count, &past, 0}, {asked.numbers, asked.count, &past, 1}};
        for (size_t k = 0; k < (is_of_leaves(call) ? 1 : COUNT(none)); k++)
            EXPECT_FRONT(call, ask(&handle, call, none[k], 0, 0), all, S2IX_DONE, 0);
    }
    s2ix_close(&handle);
}

/* One number is no leaf's, at each place: also one of a cell that is no leaf. It comes before want of room. */
static void wrong_leaves(void) {
    s2ix_handle handle = {0};
    const uint64_t wrong[] = {no_cell, 0, UINT64_MAX, face};
    open_store(&handle);
    for (int call = AT; call <= LABELS_AT; call++) {
        const answer all = one_by_one(&handle, call, asked_of(call));
        for (size_t k = 0; k < COUNT(leaves) * COUNT(wrong); k++) {
            const size_t place = k / COUNT(wrong);
            uint64_t numbers[COUNT(leaves)];
            memcpy(numbers, leaves, sizeof numbers);
            numbers[place] = wrong[k % COUNT(wrong)];
            const question asked = {numbers, COUNT(leaves), NULL, COUNT(leaves)};
            EXPECT_FRONT(call, ask(&handle, call, asked, COUNT(leaves), MANY), all, S2IX_NO_CELL, place);
            EXPECT_FRONT(call, ask(&handle, call, asked, place, items_of(all, place)), all, S2IX_NO_CELL, place);
            if (items_of(all, place) > 0)
                EXPECT(ask(&handle, call, asked, COUNT(leaves), items_of(all, place) - 1).status, S2IX_NO_ROOM);
        }
    }
    s2ix_close(&handle);
}

/* One number of a target is no cell's, at each place. It comes before want of room. */
static void wrong_targets(void) {
    s2ix_handle handle = {0};
    open_store(&handle);
    for (int call = MEET; call <= LABELS; call++) {
        const answer all = one_by_one(&handle, call, asked_of(call));
        for (size_t at = 0; at < COUNT(cells); at++) {
            size_t place = 0;
            uint64_t numbers[COUNT(cells)];
            memcpy(numbers, cells, sizeof numbers);
            numbers[at] = no_cell;
            while (bounds[place + 1] <= at) place++;
            const question asked = {numbers, COUNT(cells), bounds, COUNT(bounds)};
            EXPECT_FRONT(call, ask(&handle, call, asked, TARGETS, MANY), all, S2IX_NO_CELL, place);
            EXPECT_FRONT(call, ask(&handle, call, asked, place, items_of(all, place)), all, S2IX_NO_CELL, place);
        }
        /* (a number that no target has is not looked at) */
        const uint64_t more[] = {second, first, no_cell};
        const question asked = {more, 3, bounds, 3};
        EXPECT_FRONT(call, ask(&handle, call, asked, 2, MANY), all, S2IX_DONE, 2);
    }
    s2ix_close(&handle);
}

/* One bound falls, or passes the end of the cells, or the first is above the second. It comes before want of room. */
static void wrong_bounds(void) {
    s2ix_handle handle = {0};
    open_store(&handle);
    for (int call = MEET; call <= LABELS; call++) {
        const answer all = one_by_one(&handle, call, asked_of(call));
        for (size_t at = 0; at < COUNT(bounds); at++) {
            const size_t place = at == 0 ? 0 : at - 1;
            const size_t wrong[] = {COUNT(cells) + 1, SIZE_MAX, at == 0 ? bounds[1] + 1 : bounds[at - 1] - 1};
            for (size_t k = 0; k < COUNT(wrong); k++) {
                size_t others[COUNT(bounds)];
                memcpy(others, bounds, sizeof others);
                others[at] = wrong[k];
                const question asked = {cells, COUNT(cells), others, COUNT(bounds)};
                EXPECT_FRONT(call, ask(&handle, call, asked, TARGETS, MANY), all, S2IX_NO_SPAN, place);
                EXPECT_FRONT(call, ask(&handle, call, asked, place, items_of(all, place)), all, S2IX_NO_SPAN, place);
            }
        }
        const question none = {cells, 0, bounds, 2};
        EXPECT_FRONT(call, ask(&handle, call, none, 1, MANY), all, S2IX_NO_SPAN, 0);
    }
    s2ix_close(&handle);
}

/* In pages: each call goes on where the one before it ended, and puts as many lists as there is room for. */
static void gone_on(void) {
    s2ix_handle handle = {0};
    open_store(&handle);
    for (int call = 0; call < CALLS; call++) {
        const answer all = one_by_one(&handle, call, asked_of(call));
        size_t from = 0;
        for (uint32_t status = S2IX_NO_ROOM; status == S2IX_NO_ROOM;) {
            const answer given = ask(&handle, call, asked_from(call, from), all.answered, 4);
            const size_t before = items_of(all, from);
            size_t fit = all.answered;
            while (items_of(all, fit) > before + 4) fit--;
            status = fit == all.answered ? S2IX_DONE : S2IX_NO_ROOM;
            EXPECT(given.status, status);
            EXPECT(given.answered, fit - from);
            for (size_t k = from; k < fit; k++) EXPECT(before + given.ends[k - from], all.ends[k]);
            if (is_of_labels(call)) EXPECT(memcmp(given.labels, all.labels + before, (items_of(all, fit) - before) * sizeof *all.labels), 0);
            else EXPECT(memcmp(given.rows, all.rows + before, (items_of(all, fit) - before) * sizeof *all.rows), 0);
            from = fit;
        }
    }
    s2ix_close(&handle);
}

/* The store of the handle is as it was: what can be undone, and what it holds. */
static void unchanged(void) {
    s2ix_handle handle = {0}, copy = {0};
    size_t number = 7;
    s2ix_entry entry;
    open_store(&handle);
    EXPECT(s2ix_copy(&handle, &copy), S2IX_DONE);
    for (int call = 0; call < CALLS; call++) EXPECT(ask(&handle, call, asked_of(call), MANY, MANY).status, S2IX_DONE);
    EXPECT(s2ix_difference(&handle, &copy, &entry, 1, &number), S2IX_DONE);
    EXPECT(number, 0);
    EXPECT(s2ix_done_count(&handle, &number), S2IX_DONE);
    EXPECT(number, 4);
    s2ix_close(&handle);
    s2ix_close(&copy);
}

void check_each(void) {
    refused_while_closed();
    answered();
    wrong_leaves();
    wrong_targets();
    wrong_bounds();
    gone_on();
    unchanged();
}
