/* A control unit on Linux, made for PREEMPT_RT: slots by the clock, a thread for each job, a device
 * whose thread brings arrivals by the inbox, and a thread that writes the record. The executive's
 * thread has the highest priority of SCHED_FIFO, the jobs come next, all on one processor, with
 * memory locked. Without the right to that it runs with a warning, and its slots are as late as
 * they are. It prints how late the slots began, and what became of the jobs.
 * usage: run TABLE SLOTS MICROSECONDS [RECORD]   (MICROSECONDS: the length of a slot)
 * After `make lib`, in the folder library:
 *     cc -O2 -Ilinux linux/run.c linux/threads.c unit/inbox.c unit/plan.c unit/record.c \
 *         unit/watch.c unit/unit.c heap.c out/libslotexec.a -o run -pthread */
#define _GNU_SOURCE
#include "threads.h"
#include "../unit/unit.h"

#include <errno.h>
#include <inttypes.h>
#include <pthread.h>
#include <sched.h>
#include <stdio.h>
#include <stdlib.h>
#include <string.h>
#include <sys/mman.h>
#include <time.h>

enum { EXECUTIVE = 80, JOBS = 70, SECOND = 1000000000, TOUCHED = 65536 };

static uint8_t table[4194304];
static struct record_ring ring;
static FILE *file; /* of the record, or NULL */
static int64_t slot; /* nanoseconds */
static bool is_over; /* atomic */

static struct {
    int64_t least, most, sum; /* how late slots began, in nanoseconds */
    uint64_t slots, missed;   /* missed: a slot late, or more */
    uint64_t jobs, stopped, lost;
} seen;

void unit_fault(const char *what, uint32_t status)
{
    fprintf(stderr, "run: %s: status %" PRIu32 "\n", what, status);
    exit(1);
}

static void warn(const char *what)
{
    fprintf(stderr, "run: warning: %s: %s\n", what, strerror(errno));
}

static int64_t nanoseconds(clockid_t clock)
{
    struct timespec now;
    clock_gettime(clock, &now);
    return (int64_t)now.tv_sec * SECOND + now.tv_nsec;
}

static void sleep_until(int64_t time)
{
    struct timespec until = {0};
    until.tv_sec = (time_t)(time / SECOND);
    until.tv_nsec = (long)(time % SECOND);
    while (clock_nanosleep(CLOCK_MONOTONIC, TIMER_ABSTIME, &until, NULL) == EINTR) {}
}

static uint32_t below(unsigned *state, uint32_t count)
{
    return (uint32_t)rand_r(state) % count;
}

/* A job computes for a part of its worst case, by the clock of its own thread. */
void unit_run(const struct frame *frame)
{
    unsigned state = (unsigned)frame->key.number * 7919 + frame->key.group * 31 + frame->key.task;
    int64_t part = 20 + below(&state, 60), end = nanoseconds(CLOCK_THREAD_CPUTIME_ID);
    end += frame->slots * slot / 100 * part;
    while (nanoseconds(CLOCK_THREAD_CPUTIME_ID) < end) {}
    __atomic_fetch_add(&seen.jobs, 1, __ATOMIC_RELAXED);
}

/* A job may ask for two slots more. */
uint32_t unit_more(const struct frame *frame)
{
    (void)frame;
    return 2;
}

void unit_stopped(const struct frame *frame)
{
    (void)frame;
    seen.stopped++;
}

void unit_told(const struct arrival *arrival, uint32_t row, const ss_told *told)
{
    (void)arrival;
    (void)row;
    (void)told;
}

/* The device: an arrival now and then. */
static void *bring(void *unused)
{
    unsigned state = 1;
    while (!__atomic_load_n(&is_over, __ATOMIC_ACQUIRE)) {
        struct arrival arrival = {ARRIVAL_SOFT, 0, 0, 0};
        sleep_until(nanoseconds(CLOCK_MONOTONIC) + slot + slot / 8 * below(&state, 64));
        arrival.number = 1 + below(&state, 3);
        arrival.within = 5 + below(&state, 40);
        if (below(&state, 2) > 0) arrival.kind = ARRIVAL_FIRM;
        if (unit.plan.alarms > 0 && below(&state, 3) == 0) {
            arrival.kind = ARRIVAL_SPORADIC;
            arrival.number = below(&state, unit.plan.alarms);
        }
        if (!inbox_put(&unit.inbox, &arrival)) seen.lost++;
    }
    return unused;
}

/* The writer: what the ring has, into the file. */
static void *write_record(void *unused)
{
    bool last;
    char bytes[4096];
    size_t count;
    do {
        last = __atomic_load_n(&is_over, __ATOMIC_ACQUIRE);
        while ((count = record_from_ring(&ring, bytes, sizeof bytes)) > 0) {
            if (file != NULL) fwrite(bytes, 1, count, file);
        }
        sleep_until(nanoseconds(CLOCK_MONOTONIC) + 2000000);
    } while (!last);
    return unused;
}

static bool put(const char *line, size_t length)
{
    return record_to_ring(&ring, line, length);
}

/* Memory that is there, and stays. */
static void lock_memory(void)
{
    volatile unsigned char stack[TOUCHED];
    size_t at;
    if (mlockall(MCL_CURRENT | MCL_FUTURE) != 0) warn("memory is not locked");
    for (at = 0; at < sizeof stack; at += 4096) stack[at] = 0;
}

/* The last processor that this thread may use, and its priority. Returns that of the jobs. */
static int take_processor(void)
{
    struct sched_param executive = {0};
    cpu_set_t may, one;
    size_t place;
    CPU_ZERO(&one);
    if (sched_getaffinity(0, sizeof may, &may) == 0) {
        for (place = CPU_SETSIZE - 1; place > 0 && !CPU_ISSET(place, &may);) place--;
        CPU_SET(place, &one);
        if (sched_setaffinity(0, sizeof one, &one) != 0) warn("not on one processor");
    }
    executive.sched_priority = EXECUTIVE;
    if (sched_setscheduler(0, SCHED_FIFO, &executive) == 0) return JOBS;
    warn("not with SCHED_FIFO, so slots begin late when others run");
    return 0;
}

static void note(int64_t late)
{
    if (seen.slots == 0 || late < seen.least) seen.least = late;
    if (late > seen.most) seen.most = late;
    seen.sum += late;
    seen.slots++;
    seen.missed += late >= slot;
}

/* The slots, one after the other. The time of the next one is counted from the first, and not from
 * now: so a slot that began late makes no other one late, and one that was missed is caught up
 * with. */
static void run_slots(void)
{
    int64_t next = nanoseconds(CLOCK_MONOTONIC) + slot;
    do {
        sleep_until(next);
        note(nanoseconds(CLOCK_MONOTONIC) - next);
        next += slot;
    } while (threads_next_slot());
}

static size_t read_table(const char *name)
{
    FILE *from = fopen(name, "rb");
    size_t bytes = from != NULL ? fread(table, 1, sizeof table, from) : 0;
    if (from != NULL) fclose(from);
    return bytes;
}

int main(int words, char **word)
{
    pthread_t device, writer;
    ss_told fault;
    uint32_t status;
    int priority;
    if (words < 4) return fputs("usage: run TABLE SLOTS MICROSECONDS [RECORD]\n", stderr), 1;
    slot = strtoll(word[3], NULL, 10) * 1000;
    if (words > 4 && (file = fopen(word[4], "wb")) == NULL) return perror(word[4]), 1;
    status = unit_open(table, read_table(word[1]), RECORD_RUNS, put, &fault);
    if (status != SS_OK || slot <= 0) unit_fault("open", status);
    unit.until = strtoull(word[2], NULL, 10);
    /* These two are no part of the unit, and stay on the processors where they may be. */
    if (pthread_create(&device, NULL, bring, NULL) != 0 ||
        pthread_create(&writer, NULL, write_record, NULL) != 0) unit_fault("threads", SS_MEMORY);
    priority = take_processor();
    if (!threads_open(priority)) unit_fault("threads", SS_MEMORY);
    lock_memory();
    run_slots();
    threads_close();
    __atomic_store_n(&is_over, true, __ATOMIC_RELEASE);
    pthread_join(device, NULL);
    pthread_join(writer, NULL);
    if (file != NULL && fclose(file) != 0) return perror(word[4]), 1;
    printf("slots %" PRIu64 " late by %" PRId64 " to %" PRId64 " us, %" PRId64
           " us in the mean; missed %" PRIu64 "\njobs %" PRIu64 " stopped %" PRIu64
           " arrivals %" PRIu32 " lost %" PRIu64 " lines lost %" PRIu64 "\n",
           seen.slots, seen.least / 1000, seen.most / 1000, seen.sum / (int64_t)seen.slots / 1000,
           seen.missed, seen.jobs, seen.stopped, unit.row, seen.lost, unit.record.lost);
    if (ss_close(&unit.slots) != SS_OK) unit_fault("close", SS_CLOSED);
    return 0;
}
