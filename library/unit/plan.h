/* What a unit needs of its plan beyond the calls of the executive: how many slots a job may take,
 * and by when it is due. It is read once out of the binary table, which ss_open has compared with
 * the task set before: so nothing is looked at twice here. */
#ifndef UNIT_PLAN_H
#define UNIT_PLAN_H

#include "../slotexec.h"

enum { PLAN_GRAPHS = 32, PLAN_TASKS = 128, PLAN_ALARMS = 8 };

struct plan_task {
    uint32_t slots; /* its worst case */
    uint32_t due;   /* its derived deadline, of instance 0 */
};

struct plan_alarm {
    uint32_t slots, separation, within; /* within: slots from the arrival to the deadline */
};

struct plan {
    uint32_t soft_limit, graphs, tasks, alarms, jobs, spans, cycle;
    uint32_t period[PLAN_GRAPHS];
    uint32_t first[PLAN_GRAPHS]; /* the place of the graph's first task */
    struct plan_task task[PLAN_TASKS];
    struct plan_alarm alarm[PLAN_ALARMS];
};

/* Reads a table of version 2 that ss_open has taken. False where it is of another version, or has
 * more than PLAN_TASKS tasks. */
bool plan_read(struct plan *plan, const uint8_t *table);

/* The task of an offline job. */
const struct plan_task *plan_task_of(const struct plan *plan, const ss_key *key);

/* When an offline job is due: at its derived deadline, which leaves its successors their time. */
uint64_t plan_due(const struct plan *plan, const ss_key *key);

#endif
