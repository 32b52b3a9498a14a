/* A control loop over the library: a slot a millisecond, a diagnosis that is worth running only
 * within its deadline, and an alarm. What a job does is left out: `run` would call it.
 * usage: control TABLE SLOTS   (TABLE has a sporadic task; `slotshift table` writes one)
 * After `make lib`: cc -O2 control.c heap.c out/libslotexec.a -o control -pthread */
#define _POSIX_C_SOURCE 200809L
#include "slotexec.h"

#include <stdio.h>
#include <stdlib.h>
#include <time.h>

static ss_slots slots; /* all zero: closed */
static uint8_t table[4194304];
static uint32_t row; /* of the last arrival */
static unsigned long ran[SS_SOFT + 1], taken, refused, alarms;

/* Ends the run where a call did not do what it says. */
static void want(const char *what, uint32_t status)
{
    if (status == SS_OK) return;
    fprintf(stderr, "control: %s: status %u\n", what, (unsigned)status);
    exit(1);
}

/* A slot of this job; SS_NONE is idle. An offline job is task `task` of graph `group`. True where
 * the job has ended and has slots left. */
static bool run(const ss_key *job)
{
    ran[job->kind]++;
    return false;
}

/* The slots that an early end leaves are free from the next slot on. */
static void ended(const ss_key *job)
{
    ss_told told;
    want("done", ss_done(&slots, ++row, job, &told));
}

/* Asks for 9 slots within 20, and does without where the set has no room for them. */
static void diagnose(void)
{
    ss_told told;
    want("firm", ss_firm(&slots, ++row, 9, 20, &told));
    if (told.answer == SS_ACCEPTED) taken++;
    else refused++;
}

/* The alarm is the first sporadic task. One that comes too soon is lost. */
static void alarm_came(void)
{
    ss_told told;
    want("alarm", ss_sporadic(&slots, ++row, 0, &told));
    if (told.answer == SS_TAKEN) alarms++;
}

int main(int count, char **words)
{
    FILE *file = count == 3 ? fopen(words[1], "rb") : NULL;
    size_t bytes = file != NULL ? fread(table, 1, sizeof table, file) : 0;
    unsigned long slot, end = count == 3 ? strtoul(words[2], NULL, 10) : 0;
    struct timespec next;
    ss_told fault;
    ss_key job;
    uint32_t status;
    if (file == NULL) {
        fprintf(stderr, "usage: control TABLE SLOTS, where the file TABLE can be read\n");
        return 1;
    }
    status = ss_open(&slots, table, bytes, &fault);
    if (status == SS_BAD_TABLE) fprintf(stderr, "control: fault %u\n", (unsigned)fault.answer);
    want("open", status);
    clock_gettime(CLOCK_MONOTONIC, &next);
    for (slot = 0; slot < end; slot++) {
        if (slot % 50 == 7) diagnose();
        if (slot % 97 == 3) alarm_came();
        want("slot", ss_slot(&slots, &job));
        if (run(&job)) ended(&job);
        next.tv_nsec += 1000000;
        if (next.tv_nsec >= 1000000000) next.tv_sec++, next.tv_nsec -= 1000000000;
        clock_nanosleep(CLOCK_MONOTONIC, TIMER_ABSTIME, &next, NULL);
    }
    printf("idle %lu offline %lu sporadic %lu firm %lu; diagnoses %lu, refused %lu; alarms %lu\n",
           ran[SS_NONE], ran[SS_OFFLINE], ran[SS_SPORADIC], ran[SS_FIRM], taken, refused, alarms);
    want("close", ss_close(&slots));
    return 0;
}
