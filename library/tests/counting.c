#include "counting.h"
#include "../heap.h"

#include <stdlib.h>

unsigned long heap_calls, heap_blocks, heap_refuse;

static char nowhere;

/* A block, which is a new one where none was there. */
static struct slotexec_block grown(void *at, size_t bytes, size_t alignment)
{
    struct slotexec_block block = {false, &nowhere};
    void *got;
    if (++heap_calls == heap_refuse) return block;
    got = realloc(at, bytes != 0 ? bytes : alignment);
    if (got == NULL) return block;
    if (at == NULL) heap_blocks++;
    block.ok = true;
    block.at = got;
    return block;
}

struct slotexec_block rattle_alloc(size_t bytes, size_t alignment)
{
    return grown(NULL, bytes, alignment);
}

struct slotexec_block rattle_realloc(void *at, size_t kept, size_t bytes, size_t alignment)
{
    (void)kept;
    return grown(at, bytes, alignment);
}

void rattle_dealloc(void *at)
{
    heap_blocks--;
    free(at);
}
