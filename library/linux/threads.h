/* The dispatcher of ../unit/dispatch.h with a thread for each job in place of two stacks. All
 * threads are on the processor of the one that calls these. */
#ifndef UNIT_THREADS_H
#define UNIT_THREADS_H

#include <stdbool.h>

/* Makes the threads, of this priority of SCHED_FIFO, or 0: as the others. False where they cannot
 * be made. */
bool threads_open(int priority);

/* A slot is over: asks unit_tick for the next one, halts the job that had it, and has the next one
 * go on. False after the last slot. */
bool threads_next_slot(void);

/* Ends the threads. */
void threads_close(void);

#endif
