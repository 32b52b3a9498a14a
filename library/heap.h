/* The three functions that the library takes its memory by. Link heap.c, arena.c, or your own. */
#ifndef SLOTEXEC_HEAP_H
#define SLOTEXEC_HEAP_H

#include <stdbool.h>
#include <stddef.h>

/* A block, or none: then `at` points to any byte, which is not used. */
struct slotexec_block {
    bool ok;
    void *at;
};

/* A block of `bytes` bytes at a multiple of the alignment, which divides 16. No two blocks overlap,
 * and one of no bytes has a place too. */
struct slotexec_block rattle_alloc(size_t bytes, size_t alignment);

/* A block of `bytes` bytes, which begins with the first `kept` bytes of the one at `at`. That one
 * is gone then; where there is none, it stays as it was. */
struct slotexec_block rattle_realloc(void *at, size_t kept, size_t bytes, size_t alignment);

/* Takes back a block that one of these gave. */
void rattle_dealloc(void *at);

#endif
