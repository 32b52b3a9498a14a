/* A heap that counts, and refuses one allocation. */
#ifndef COUNTING_H
#define COUNTING_H

extern unsigned long heap_calls;  /* allocations that were asked for */
extern unsigned long heap_blocks; /* blocks that are held */
extern unsigned long heap_refuse; /* the number of the call that is refused, 0: none */

#endif
