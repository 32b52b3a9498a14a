/* The library's memory from one static array of SLOTEXEC_ARENA bytes, in place of heap.c. */
#ifndef SLOTEXEC_ARENA_H
#define SLOTEXEC_ARENA_H

#include <stddef.h>

#ifndef SLOTEXEC_ARENA
#define SLOTEXEC_ARENA 3145728
#endif

/* Bytes that suffice for a plan, by its numbers as `slotshift show` prints them: cycle, jobs, spans
 * and soft; `tasks` are its graphs, tasks and sporadic tasks together. A cycle's slots are what
 * counts. It is tested over random sets and not proved; slotexec_arena_most returns how many are
 * really used. */
#define SLOTEXEC_ARENA_FOR(cycle, jobs, spans, soft, tasks) \
    (24640u + 412u * (cycle) + 320u * (jobs) + 128u * (spans) + 12u * (soft) + 512u * (tasks))

/* How many bytes of the array were ever in use at one time, with what lay free between them. An
 * array of that size serves for the same tables: open each once on a bench, as
 * tests/arena_fit.c does, and take the most. With a smaller one ss_open answers SS_MEMORY. The
 * flight controller of examples/ needs 46,512 bytes, and the engine 2,059,888. */
size_t slotexec_arena_most(void);

#endif
