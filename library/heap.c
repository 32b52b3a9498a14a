/* The library's memory from malloc, which aligns a block to 16 where its bytes need it. */
#include "heap.h"

#include <stdlib.h>

static char nowhere;

static struct slotexec_block block_at(void *at)
{
    struct slotexec_block block = {at != NULL, at != NULL ? at : &nowhere};
    return block;
}

struct slotexec_block rattle_alloc(size_t bytes, size_t alignment)
{
    return block_at(malloc(bytes != 0 ? bytes : alignment));
}

struct slotexec_block rattle_realloc(void *at, size_t kept, size_t bytes, size_t alignment)
{
    (void)kept;
    return block_at(realloc(at, bytes != 0 ? bytes : alignment));
}

void rattle_dealloc(void *at)
{
    free(at);
}
