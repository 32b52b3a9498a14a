/* Two stacks for all jobs: one for guaranteed jobs, one for soft work.
 *
 * A job is a function. It starts as a call on top of the job that it takes the processor from, and
 * goes on when that call has returned: so jobs of one stack need no context of their own, and no
 * switch. Only between the two stacks there is a switch.
 *
 * That this serves rests on how the executive chooses. A guaranteed job goes on only when each
 * other guaranteed job that ran since it started has ended or was withdrawn; soft jobs run one
 * after the other. That much is proved of every legal history (crates/service_laws, nesting.rt).
 * Both kinds on one stack do not serve: soft work is given a slot above a guaranteed job, and that
 * job goes on before the soft work has ended. What is proved says nothing of C, nor of a job that
 * overruns and goes on under another key (watch.c). So it is tested here too, over random sets and
 * arrivals (tests/nesting.py counts the exceptions: none, and many with one stack), and
 * dispatch_give looks at it in each slot. Of the choice of another executive nothing is assumed.
 *
 * A job that was withdrawn or stopped under another one keeps its place until that one has
 * ended. */
#ifndef UNIT_DISPATCH_H
#define UNIT_DISPATCH_H

#include "port.h"
#include "../slotexec.h"

enum { DISPATCH_DEPTH = 24 }; /* the most jobs of one stack that have started and not ended */

/* A job that has started. */
struct frame {
    ss_key key;
    uint64_t due;   /* its derived deadline, 0 for soft work */
    uint32_t slots; /* that it may have */
    uint32_t had;   /* that it was given */
    uint32_t more;  /* that may be asked for beyond them */
    uint32_t tag;
    bool ended;   /* its function has returned */
    bool dropped; /* it is withdrawn or stopped: its function goes on no more */
    struct port_mark mark;
};

/* Gives the processor away, slot by slot, on the stack that calls it, which becomes the one of the
 * guaranteed jobs. It returns after dispatch_stop. Interrupts are closed before, and afterwards. */
void dispatch_run(void);

/* A slot is over. The timer's interrupt calls it, with interrupts closed and on the stack of what
 * it interrupted; it returns when that goes on. It asks unit_tick for the next slot, which calls
 * one of the four below. */
void dispatch_slot_over(void);

void dispatch_give(struct frame *frame);         /* this job, that has started, has the next slot */
void dispatch_begin(const struct frame *frame); /* this one starts in it; the frame is copied */
void dispatch_idle(void);
void dispatch_stop(void); /* no slot is left: all jobs are dropped */

/* The job that had the slot which is over, or NULL where none had. */
struct frame *dispatch_had(void);

/* The job of this key that has started, and neither ended nor was dropped, or NULL. */
struct frame *dispatch_find(const ss_key *key);

/* The job under this one that goes on after it, or NULL. */
struct frame *dispatch_under(const struct frame *frame);

#endif
