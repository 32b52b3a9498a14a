/* Tries the copies of bare/memory.c, under other names, against loops of bytes: each length up to
 * 40 and each distance up to 24, up and down. */
#include "common.h"

#define memcpy tried_memcpy
#define memmove tried_memmove
#define memset tried_memset
#include "../bare/memory.c"
#undef memcpy
#undef memmove
#undef memset

enum { ROOM = 128 };

static unsigned char got[ROOM], wanted[ROOM], before[ROOM];

static void fill(void)
{
    int at;
    for (at = 0; at < ROOM; at++) before[at] = got[at] = wanted[at] = (unsigned char)below(256);
}

static bool is_same(void)
{
    int at = 0;
    while (at < ROOM && got[at] == wanted[at]) at++;
    return at == ROOM;
}

int main(void)
{
    size_t length, from, to, at;
    for (length = 0; length <= 40; length++) {
        for (from = 24; from <= 48; from++) {
            for (to = 24; to <= 48; to++) {
                fill();
                for (at = 0; at < length; at++) wanted[to + at] = before[from + at];
                HOLDS(tried_memmove(got + to, got + from, length) == got + to && is_same());
            }
            fill();
            for (at = 0; at < length; at++) wanted[from + at] = before[at];
            HOLDS(tried_memcpy(got + from, before, length) == got + from && is_same());
            fill();
            for (at = 0; at < length; at++) wanted[from + at] = 0xa5;
            HOLDS(tried_memset(got + from, 0x1a5, length) == got + from && is_same());
        }
    }
    printf("memory: %lu passed, %lu failed\n", passed, failed);
    return failed > 0 ? 1 : 0;
}
