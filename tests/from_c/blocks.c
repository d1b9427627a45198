/* Stands before malloc, realloc and free of what it is linked with, and counts the blocks that are held. Each thread may call it. */
#include "blocks.h"

#include <stdatomic.h>
#include <stddef.h>

void *__real_malloc(size_t size);
void *__real_realloc(void *old, size_t size);
void __real_free(void *block);
void *__wrap_malloc(size_t size);
void *__wrap_realloc(void *old, size_t size);
void __wrap_free(void *block);

static atomic_long held;

void *__wrap_malloc(size_t size) {
    void *block = __real_malloc(size);
    held += block != NULL;
    return block;
}

void *__wrap_realloc(void *old, size_t size) {
    void *block = __real_realloc(old, size);
    held += old == NULL && block != NULL;
    return block;
}

void __wrap_free(void *block) {
    held -= block != NULL;
    __real_free(block);
}

long blocks_held(void) { return held; }
