/* Asks a store of s2ix_reader.h from several threads while another edits it: each answer is of one state, and of none before the last edit that
   had returned. It says at which lines an answer was wrong. */
#include "checks.h"
#include "s2ix_reader.h"

#include <pthread.h>
#include <stdatomic.h>
#include <stdint.h>

enum { THREADS = 6, STATES = 400 };

static const uint64_t cells[] = {0x0400000000000000, 0x2400000000000000, 0x4400000000000000};
static s2ix_shared zones = S2IX_SHARED;
static atomic_uint last_state;
/* In state n each of the three cells has n copies. */
static void edit_all(void) {
    s2ix_row rows[] = {{cells[0], 7, 1}, {cells[1], 7, 1}, {cells[2], 7, 1}};
    for (unsigned state = 1; state <= STATES; state++) {
        size_t number;
        EXPECT(s2ix_add_all(s2ix_shared_lock(&zones), rows, 3, &number), S2IX_DONE);
        s2ix_shared_unlock(&zones);
        last_state = state;
    }
}

/* The state that a reader shows; no state if the three cells have different counts. */
static unsigned state_of(s2ix_reader *reader) {
    s2ix_row rows[4] = {0};
    size_t number;
    EXPECT(s2ix_of_label(&reader->copy, 7, rows, 4, &number), S2IX_DONE);
    if (number == 0)
        return 0;
    return number == 3 && rows[0].count == rows[1].count && rows[1].count == rows[2].count ? rows[0].count : STATES + 2;
}

static void *ask_all(void *argument) {
    s2ix_reader reader = {0};
    unsigned found = 0;
    (void)argument;
    while (found < STATES) {
        unsigned before = last_state;
        EXPECT(s2ix_reader_follow(&reader, &zones), S2IX_DONE);
        found = state_of(&reader);
        EXPECT(before <= found && found <= last_state + 1, true);
    }
    s2ix_close(&reader.copy);
    return NULL;
}

void check_readers(void) {
    pthread_t threads[THREADS];
    s2ix_reader reader = {0};
    EXPECT(s2ix_reader_follow(&reader, &zones), S2IX_CLOSED);
    EXPECT(s2ix_open(s2ix_shared_lock(&zones), 1000, 1000, 1000), S2IX_DONE);
    s2ix_shared_unlock(&zones);
    EXPECT(s2ix_reader_follow(&reader, &zones), S2IX_DONE);
    const void *first = reader.copy.address;
    EXPECT(s2ix_reader_follow(&reader, &zones), S2IX_DONE);
    EXPECT(reader.copy.address == first && state_of(&reader) == 0, true);
    for (size_t i = 0; i < THREADS; i++)
        EXPECT(pthread_create(&threads[i], NULL, ask_all, NULL), 0);
    edit_all();
    for (size_t i = 0; i < THREADS; i++)
        EXPECT(pthread_join(threads[i], NULL), 0);
    /* the copy is as it was until it follows, and closed once the store is */
    EXPECT(state_of(&reader), 0);
    EXPECT(s2ix_reader_follow(&reader, &zones), S2IX_DONE);
    EXPECT(state_of(&reader), STATES);
    s2ix_close(s2ix_shared_lock(&zones));
    s2ix_shared_unlock(&zones);
    EXPECT(s2ix_reader_follow(&reader, &zones), S2IX_CLOSED);
    EXPECT(reader.copy.is_open, false);
}
