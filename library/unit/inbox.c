/* The ring of inbox.h. A number is published by a store that no earlier store passes (release), and
 * read by a load that no later load passes (acquire): the place is whole before the other side
 * looks at it, and is looked at no more when it is used again. The builtins are those of GCC and
 * Clang; C11 has the same in <stdatomic.h>. */
#include "inbox.h"

static uint32_t theirs(const uint32_t *number)
{
    return __atomic_load_n(number, __ATOMIC_ACQUIRE);
}

static void publish(uint32_t *number, uint32_t value)
{
    __atomic_store_n(number, value, __ATOMIC_RELEASE);
}

bool inbox_put(struct inbox *inbox, const struct arrival *arrival)
{
    uint32_t put = inbox->put;
    if (put - theirs(&inbox->taken) == INBOX_PLACES) return false;
    inbox->places[put % INBOX_PLACES] = *arrival;
    publish(&inbox->put, put + 1);
    return true;
}

uint32_t inbox_count(const struct inbox *inbox)
{
    return theirs(&inbox->put) - inbox->taken;
}

bool inbox_take(struct inbox *inbox, struct arrival *arrival)
{
    uint32_t taken = inbox->taken;
    if (theirs(&inbox->put) == taken) return false;
    *arrival = inbox->places[taken % INBOX_PLACES];
    publish(&inbox->taken, taken + 1);
    return true;
}
