/* What the tests have in common: a table from a file, and a case that has to hold. */
#ifndef COMMON_H
#define COMMON_H

#include "../slotexec.h"

#include <stdio.h>
#include <stdlib.h>

static unsigned long passed, failed;

#define HOLDS(case) holds((case), #case, __LINE__)

static inline void holds(bool is, const char *text, int line)
{
    if (is) passed++;
    else failed++, printf("failed: line %d: %s\n", line, text);
}

static inline size_t read_table(const char *name, uint8_t *table, size_t room)
{
    FILE *file = fopen(name, "rb");
    size_t bytes = file != NULL ? fread(table, 1, room, file) : 0;
    if (file == NULL) printf("cannot read %s\n", name), exit(2);
    fclose(file);
    return bytes;
}

/* The next of a row of numbers that look random, below this one. */
static inline uint32_t below(uint32_t count)
{
    static uint64_t state = 20260101;
    state = state * 6364136223846793005u + 1442695040888963407u;
    return (uint32_t)(state >> 33) % count;
}

#endif
