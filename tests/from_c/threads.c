/* Edits and asks stores on several threads at once, each by a handle of its own: copies of one store, which share memory. Then it hands a
   handle from thread to thread. In the end each store must hold what the same edits make on one thread. It says at which lines an answer
   was wrong. */
#include "checks.h"
#include "s2ix.h"

#include <pthread.h>
#include <stdint.h>
#include <string.h>

enum { THREADS = 6, ROUNDS = 900, PAIRS = 600, ROOM = 64000 };

/* What a thread has: its handle and its label. */
typedef struct worker {
    pthread_t thread;
    s2ix_handle handle;
    uint32_t label;
} worker;

/* The cell of level 10 with a number, all over the six faces. */
static uint64_t cell_of(size_t number) {
    return ((uint64_t)(number * 40503 % (6u << 20)) << 41) + ((uint64_t)1 << 40);
}

static void fill(worker *at) {
    static s2ix_row rows[PAIRS];
    size_t number;
    for (size_t i = 0; i < PAIRS; i++)
        rows[i] = (s2ix_row){cell_of(i), (uint32_t)(i % 7), 1};
    EXPECT(s2ix_open(&at->handle, 1000000, 1000, 1000), S2IX_DONE);
    EXPECT(s2ix_add_all(&at->handle, rows, PAIRS, &number), S2IX_DONE);
    EXPECT(number, PAIRS);
}

/* Copies a store, and edits and closes the copy. */
static void edit_copy(worker *at, uint64_t cell) {
    s2ix_handle copy = {0};
    size_t len, number;
    EXPECT(s2ix_len(&at->handle, &len), S2IX_DONE);
    EXPECT(s2ix_copy(&at->handle, &copy), S2IX_DONE);
    EXPECT(s2ix_add(&copy, cell, at->label + 1000, 2, &number), S2IX_DONE);
    EXPECT(s2ix_len(&copy, &number), S2IX_DONE);
    EXPECT(number, len + 1);
    s2ix_close(&copy);
}

/* Edits and asks a store: each third addition stays. */
static void *work(void *argument) {
    worker *at = argument;
    size_t number;
    uint32_t count;
    for (size_t round = 0; round < ROUNDS; round++) {
        uint64_t cell = cell_of(round * 13), leaf = cell + 1;
        s2ix_row rows[16];
        EXPECT(s2ix_add(&at->handle, cell, at->label, 3, &number), S2IX_DONE);
        EXPECT(s2ix_count(&at->handle, cell, at->label, &count), S2IX_DONE);
        EXPECT(count, 3);
        EXPECT(s2ix_at(&at->handle, leaf, rows, 16, &number), S2IX_DONE);
        EXPECT(number > 0, true);
        if (round % 10 == 0)
            edit_copy(at, cell);
        if (round % 3 != 0)
            EXPECT(s2ix_undo(&at->handle, &number), S2IX_DONE);
    }
    return NULL;
}

static void start(worker *at, void *(*steps)(void *)) { EXPECT(pthread_create(&at->thread, NULL, steps, at), 0); }

static void end(worker *at) { EXPECT(pthread_join(at->thread, NULL), 0); }

/* A worker's store as a dump, of number bytes. */
static size_t dumped(worker *at, uint8_t *text) {
    size_t number;
    EXPECT(s2ix_dump(&at->handle, text, ROOM, &number), S2IX_DONE);
    return number;
}

/* Whether a store holds what the worker's steps make on one thread of a store that shares nothing with another. */
static void compare(worker *at) {
    static uint8_t found[ROOM], wanted[ROOM];
    worker alone = {.label = at->label};
    fill(&alone);
    work(&alone);
    size_t len = dumped(&alone, wanted);
    EXPECT(dumped(at, found), len);
    EXPECT(memcmp(found, wanted, len), 0);
    s2ix_close(&alone.handle);
}

/* One store's copies, on a thread each, while the store itself is edited and closed on this one. */
static void at_once(void) {
    worker first = {.label = 100}, copies[THREADS] = {0};
    fill(&first);
    for (uint32_t i = 0; i < THREADS; i++) {
        copies[i].label = 101 + i;
        EXPECT(s2ix_copy(&first.handle, &copies[i].handle), S2IX_DONE);
    }
    for (size_t i = 0; i < THREADS; i++)
        start(&copies[i], work);
    work(&first);
    compare(&first);
    s2ix_close(&first.handle);
    for (size_t i = 0; i < THREADS; i++) {
        end(&copies[i]);
        compare(&copies[i]);
        s2ix_close(&copies[i].handle);
    }
}

static void *open_it(void *argument) {
    fill(argument);
    return NULL;
}

static void *close_it(void *argument) {
    worker *at = argument;
    s2ix_close(&at->handle);
    return NULL;
}

/* A handle that is opened on one thread, used on another and closed on a third. */
static void handed_on(void) {
    worker at = {.label = 100};
    start(&at, open_it);
    end(&at);
    start(&at, work);
    end(&at);
    compare(&at);
    start(&at, close_it);
    end(&at);
    EXPECT(at.handle.is_open, false);
}

void check_threads(void) {
    at_once();
    handed_on();
}
