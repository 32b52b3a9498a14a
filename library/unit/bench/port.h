/* The port for a test bench on Linux: slots pass where the jobs say so, and not by the clock, so
 * that a run is the same each time. port_strike is the timer's interrupt. Each stack is
 * that of a thread; of the two threads one runs, and the other waits to be handed the processor. */
#ifndef UNIT_PORT_H
#define UNIT_PORT_H

#include <pthread.h>
#include <semaphore.h>
#include <setjmp.h>

/* Where a stack left off. */
struct port_context {
    sem_t turn;
    pthread_t thread;
    void (*base)(void);
};

/* A place on the stack that is left for at once, with all calls above it: setjmp and longjmp. */
struct port_mark {
    jmp_buf at;
};

#define port_mark(mark) setjmp((mark)->at)
#define port_leave(mark) longjmp((mark)->at, 1)

/* A second stack, which calls `base` when it is first switched to; and its end, while it waits. */
void port_prepare(struct port_context *context, void (*base)(void));
void port_discard(struct port_context *context);

/* Leaves this stack and goes on with the other one, until that one switches back. */
void port_switch(struct port_context *from, struct port_context *to);

void port_open(void);  /* interrupts may come from here on */
void port_close(void); /* and from here on they may not */
void port_idle(void);  /* waits, open, for some time: a job that has nothing left to do */
void port_wait(void);  /* waits until one has come and is handled, and no second one */

/* A slot is over, here: for the jobs of a test. Before it the devices have their interrupts. */
void port_strike(void);
void bench_devices(void); /* of the test */

#endif
