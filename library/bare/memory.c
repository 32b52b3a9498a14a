/* The three functions of a C library that the executive needs, where there is none: eight bytes at
 * a time, aligned or not, and then the rest one by one. (Compile it with
 * -fno-tree-loop-distribute-patterns, or the compiler makes of each loop a call of itself.) */
#include <stddef.h>
#include <stdint.h>

typedef uint64_t __attribute__((may_alias, aligned(1))) eight;

void *memcpy(void *restrict to, const void *restrict from, size_t bytes);
void *memmove(void *to, const void *from, size_t bytes);
void *memset(void *to, int byte, size_t bytes);

static void upwards(unsigned char *to, const unsigned char *from, size_t bytes)
{
    for (; bytes >= 8; bytes -= 8, to += 8, from += 8) *(eight *)to = *(const eight *)from;
    for (; bytes > 0; bytes--) *to++ = *from++;
}

static void downwards(unsigned char *to, const unsigned char *from, size_t bytes)
{
    for (; bytes >= 8; bytes -= 8) *(eight *)(to + bytes - 8) = *(const eight *)(from + bytes - 8);
    for (; bytes > 0; bytes--) to[bytes - 1] = from[bytes - 1];
}

void *memcpy(void *restrict to, const void *restrict from, size_t bytes)
{
    upwards(to, from, bytes);
    return to;
}

void *memmove(void *to, const void *from, size_t bytes)
{
    if ((uintptr_t)to <= (uintptr_t)from) upwards(to, from, bytes);
    else downwards(to, from, bytes);
    return to;
}

void *memset(void *to, int byte, size_t bytes)
{
    unsigned char *place = to;
    uint64_t all = 0x0101010101010101u * (unsigned char)byte;
    for (; bytes >= 8; bytes -= 8, place += 8) *(eight *)place = all;
    for (; bytes > 0; bytes--) *place++ = (unsigned char)byte;
    return to;
}
