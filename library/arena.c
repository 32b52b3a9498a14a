/* Blocks side by side in one array, each behind a word that tells its length. The first free place
 * that is long enough is taken, and free neighbours become one. Lengths are in units of 16 bytes.
 */
#include "arena.h"
#include "heap.h"

#include <stdint.h>

struct unit {
    uint64_t length; /* of the block, with this word */
    uint64_t used;
};

enum { UNITS = SLOTEXEC_ARENA / sizeof(struct unit) };

#if defined __STDC_VERSION__ && __STDC_VERSION__ >= 201112L
#define AT_16 _Alignas(16)
#else
#define AT_16 __attribute__((aligned(16))) /* C99 has no word for it, but GCC and clang do */
#endif

static AT_16 struct unit arena[UNITS];
static size_t end;  /* where the last block ends */
static size_t most; /* the furthest that it ever ended */

/* Makes one free block of the one at this place and the free ones behind it. */
static void join(size_t place)
{
    struct unit *block = &arena[place];
    while (place + block->length < end && arena[place + block->length].used == 0) {
        block->length += arena[place + block->length].length;
    }
}

/* Gives the block this length, and leaves the rest of it free. */
static void take(size_t place, size_t length)
{
    struct unit *block = &arena[place];
    if (length < block->length) {
        arena[place + length].length = block->length - length;
        arena[place + length].used = 0;
        block->length = length;
    }
    block->used = 1;
}

/* The place of a block of this length, or UNITS where there is none. */
static size_t place_for(size_t length)
{
    size_t place = 0;
    while (place < end) {
        if (arena[place].used == 0) {
            join(place);
            if (arena[place].length >= length) return place;
            if (place + arena[place].length == end) break;
        }
        place += arena[place].length;
    }
    if (UNITS - place < length) return UNITS;
    arena[place].length = length;
    arena[place].used = 0;
    end = place + length;
    if (end > most) most = end;
    return place;
}

struct slotexec_block rattle_alloc(size_t bytes, size_t alignment)
{
    struct slotexec_block block = {false, arena};
    size_t place;
    (void)alignment;
    if (bytes > SLOTEXEC_ARENA) return block;
    size_t length = 1 + (bytes + sizeof(struct unit) - 1) / sizeof(struct unit);
    place = place_for(length);
    if (place == UNITS) return block;
    take(place, length);
    block.ok = true;
    block.at = &arena[place + 1];
    return block;
}

struct slotexec_block rattle_realloc(void *at, size_t kept, size_t bytes, size_t alignment)
{
    struct slotexec_block block = rattle_alloc(bytes, alignment);
    const unsigned char *from = at;
    unsigned char *to = block.at;
    size_t count = kept < bytes ? kept : bytes, place;
    if (!block.ok) return block;
    for (place = 0; place < count; place++) to[place] = from[place];
    rattle_dealloc(at);
    return block;
}

void rattle_dealloc(void *at)
{
    struct unit *block = (struct unit *)at - 1;
    block->used = 0;
}

size_t slotexec_arena_most(void)
{
    return most * sizeof(struct unit);
}
