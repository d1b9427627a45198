/* A store that any number of threads ask side by side while one at a time edits it, over s2ix.h, for C11 with POSIX threads. (An Index of
   s2ix.hpp does this by itself.) Each thread that asks has a reader: a copy, which shares memory with the store.

       static s2ix_shared zones = S2IX_SHARED;                     one for all threads

       s2ix_handle *store = s2ix_shared_lock(&zones);              to open the store, to edit it, and to close it in the end
       s2ix_open(store, 1000000, UINT32_MAX, 100000);
       s2ix_add(store, cell, 7, 1, &number);
       s2ix_shared_unlock(&zones);

       s2ix_reader reader = {0};                                   one for each thread, to ask
       if (s2ix_reader_follow(&reader, &zones) == S2IX_DONE)
           s2ix_at(&reader.copy, leaf, rows, 16, &number);
       s2ix_close(&reader.copy);

   An answer is that of one state: that of the last s2ix_shared_unlock that had returned when s2ix_reader_follow was called, or a later one.
   All questions between two calls of s2ix_reader_follow see the same state. Never edit a reader's copy. */
#ifndef S2IX_READER_H
#define S2IX_READER_H

#ifdef __cplusplus
#error "s2ix_reader.h is for C; in C++ threads share an Index of s2ix.hpp"
#endif

#include "s2ix.h"

#include <pthread.h>
#include <stdatomic.h>

/* A store that threads share. It starts as S2IX_SHARED, with a closed handle. */
typedef struct s2ix_shared {
    pthread_mutex_t mutex;
    s2ix_handle store;
    atomic_ullong state; /* it moves when the store may have been edited */
} s2ix_shared;

#define S2IX_SHARED {PTHREAD_MUTEX_INITIALIZER, {0, 0}, 0}

/* A copy of a store, and the state that it shows. It starts as {0}; s2ix_close frees the copy. Only one thread at a time uses it. */
typedef struct s2ix_reader {
    s2ix_handle copy;
    unsigned long long state;
} s2ix_reader;

/* Waits for the store, and returns its handle: the thread has it until s2ix_shared_unlock. */
static inline s2ix_handle *s2ix_shared_lock(s2ix_shared *shared) {
    pthread_mutex_lock(&shared->mutex);
    return &shared->store;
}

/* Gives the store to the next thread. Readers follow from now on. */
static inline void s2ix_shared_unlock(s2ix_shared *shared) {
    atomic_fetch_add(&shared->state, 1);
    pthread_mutex_unlock(&shared->mutex);
}

/* Brings a reader up to date. If the store hasn't been given back since the last time, this takes no lock, and a few nanoseconds; else it waits
   for the store and copies it, as s2ix_copy does, in a few microseconds. The next edit then takes longer, by some 25 to 250 microseconds at a
   million pairs. So it pays if threads ask more often than others edit. If it is refused, the reader is closed until a later call.
   S2IX_CLOSED, S2IX_OUT_OF_MEMORY. */
static inline uint32_t s2ix_reader_follow(s2ix_reader *reader, s2ix_shared *shared) {
    uint32_t status;
    if (reader->copy.is_open && reader->state == atomic_load(&shared->state))
        return S2IX_DONE;
    s2ix_close(&reader->copy);
    pthread_mutex_lock(&shared->mutex);
    status = s2ix_copy(&shared->store, &reader->copy);
    reader->state = atomic_load(&shared->state);
    pthread_mutex_unlock(&shared->mutex);
    return status;
}

#endif
