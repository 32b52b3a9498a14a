/* The port for aarch64 without a system: one core at EL1, the timer's interrupt is the slot's
 * end. */
#ifndef UNIT_PORT_H
#define UNIT_PORT_H

#include <stdint.h>

/* A place on a stack: x19 to x30, d8 to d15, sp. What else a call may change, its caller keeps. */
struct port_mark {
    uint64_t registers[21];
};

/* Where a stack left off. */
struct port_context {
    struct port_mark at;
};

/* start.S: keeps this place, and returns 0; port_leave goes on there, where it returns 1. */
int port_mark(struct port_mark *mark) __attribute__((returns_twice));
void port_leave(struct port_mark *mark) __attribute__((noreturn));

/* A second stack, which calls `base` when it is first switched to; and its end. */
void port_prepare(struct port_context *context, void (*base)(void));
void port_discard(struct port_context *context);

/* Leaves this stack and goes on with the other one, until that one switches back. */
void port_switch(struct port_context *from, struct port_context *to);

void port_open(void);  /* interrupts may come from here on */
void port_close(void); /* and from here on they may not */
void port_idle(void);  /* waits, open, for some time: a job that has nothing left to do */
void port_wait(void);  /* waits until one has come and is handled, and no second one */

#endif
