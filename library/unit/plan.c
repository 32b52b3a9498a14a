/* Goes through the bytes of a table, as docs/FORMATS.md lists them. */
#include "plan.h"

/* The next number of this length, the least byte first. */
static uint32_t number(const uint8_t **at, int bytes)
{
    uint32_t value = 0;
    int place;
    for (place = 0; place < bytes; place++) value |= (uint32_t)(*at)[place] << (8 * place);
    *at += bytes;
    return value;
}

static void skip_name(const uint8_t **at)
{
    *at += 1 + **at;
}

static bool read_graph(struct plan *plan, uint32_t graph, const uint8_t **at)
{
    uint32_t tasks, task;
    skip_name(at);
    plan->period[graph] = number(at, 4);
    *at += 8; /* offset and deadline */
    tasks = number(at, 2);
    plan->first[graph] = plan->tasks;
    for (task = 0; task < tasks; task++) {
        if (plan->tasks == PLAN_TASKS) return false;
        skip_name(at);
        plan->task[plan->tasks++].slots = number(at, 4);
        *at += 2 * number(at, 2); /* after */
    }
    return true;
}

static void read_alarm(struct plan_alarm *alarm, const uint8_t **at)
{
    skip_name(at);
    alarm->slots = number(at, 4);
    alarm->separation = number(at, 4);
    alarm->within = number(at, 4);
}

static void read_job(struct plan *plan, const uint8_t **at)
{
    uint32_t graph = number(at, 2), task = number(at, 2), instance = number(at, 4), due;
    *at += 4; /* start */
    due = number(at, 4);
    *at += 4; /* slots */
    if (instance == 0) plan->task[plan->first[graph] + task].due = due;
}

bool plan_read(struct plan *plan, const uint8_t *table)
{
    const uint8_t *at = table + 4;
    uint32_t place;
    if (number(&at, 2) != 2) return false;
    plan->soft_limit = number(&at, 4);
    plan->graphs = number(&at, 2);
    plan->tasks = 0;
    for (place = 0; place < plan->graphs; place++) {
        if (!read_graph(plan, place, &at)) return false;
    }
    plan->alarms = number(&at, 2);
    for (place = 0; place < plan->alarms; place++) read_alarm(&plan->alarm[place], &at);
    plan->jobs = number(&at, 4);
    for (place = 0; place < plan->jobs; place++) read_job(plan, &at);
    plan->spans = number(&at, 4);
    for (place = 0; place < plan->spans; place++) {
        at += 4;
        plan->cycle = number(&at, 4); /* the last span ends with the cycle */
        at += 12;
    }
    return true;
}

const struct plan_task *plan_task_of(const struct plan *plan, const ss_key *key)
{
    return &plan->task[plan->first[key->group] + key->task];
}

uint64_t plan_due(const struct plan *plan, const ss_key *key)
{
    return plan_task_of(plan, key)->due + key->number * plan->period[key->group];
}
