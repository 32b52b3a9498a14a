/* A control unit around the executive: a slot's start, from the timer's interrupt.
 *
 *   inbox.c     arrivals, which interrupts put in and the slot's start takes out
 *   plan.c      worst cases and derived deadlines, out of the binary table
 *   dispatch.c  jobs as functions, on two stacks
 *   watch.c     what happens to a job that has had its slots and is not done
 *   record.c    what arrived and what ran, as lines that the programs read
 *   port.h      what is the processor's own: ../bare/ for aarch64, bench/ for a test bench,
 *               ../linux/ for threads, which has another dispatcher
 *
 * All calls of the library are in unit.c, watch.c and record.c, and are made at a slot's start
 * with interrupts closed. So no two of them overlap, whichever stack or thread they are made on. */
#ifndef UNIT_H
#define UNIT_H

#include "dispatch.h"
#include "inbox.h"
#include "plan.h"
#include "record.h"
#include "../slotexec.h"

struct unit {
    ss_slots slots;
    struct plan plan;
    struct inbox inbox;
    struct record record;
    uint64_t now;   /* the slots that have passed */
    uint64_t until; /* where the unit stops, 0: never */
    uint32_t row;   /* of the last arrival */
};

extern struct unit unit;

/* Opens a table, and starts the record. The status is that of ss_open, or SS_BAD_TABLE where plan.c
 * does not read it. dispatch_run comes next. */
uint32_t unit_open(const uint8_t *table, size_t bytes, enum record_level level, record_sink *sink,
                   ss_told *fault);

/* A slot's start: the end of the last one is looked at, arrivals are answered, and the executive
 * gives the dispatcher the job that has the next slot. dispatch_slot_over calls it. */
void unit_tick(void);

/* The row of the next arrival, or 0 where rows are used up; and whether they are not. Afterwards a
 * job that ends early keeps its slots. */
uint32_t unit_next_row(void);
bool unit_has_rows(void);

/* Whether a call with that row did what it says. Where a number of it is out of its range it has no
 * row: rows have no gaps, so that those of the record are those of the run. Where rows are used up
 * nothing more is asked for, while slots pass and the plan goes on. Any other status is a fault. */
bool unit_has_asked(const char *what, uint32_t status);

/* What the application has. */

/* Runs a job to its end, with interrupts open. The frame has its key, its slots, when it is due
 * and its tag; an offline job is task `task` of graph `group`. */
void unit_run(const struct frame *frame);

/* What an arrival was answered, at a slot's start. A row of 0: it was not asked for, since a number
 * of it is out of its range, rows are used up, or UNIT_PENDING of its kind wait already; its answer
 * is SS_NO_ROOM then. A request is taken back by its row. */
void unit_told(const struct arrival *arrival, uint32_t row, const ss_told *told);

/* How many slots a job may ask for, beyond its worst case, where it is not done by then. */
uint32_t unit_more(const struct frame *frame);

/* The job was stopped in the middle: it had its slots, and there was no room for more. */
void unit_stopped(const struct frame *frame);

/* What cannot happen did: a call told this status, or a rule of this unit is broken. It does not
 * return; a unit goes to its safe state. */
void unit_fault(const char *what, uint32_t status) __attribute__((noreturn));

enum { UNIT_PENDING = 64 }; /* soft jobs, and requests, that were taken and have not started */

#endif
