/* The threads of threads.h. A job is halted by a signal, in whose handler it waits for another one:
 * so it is halted anywhere, also where no priority may be set. Between the signal and its handler
 * no line of the job runs. What jobs share is halted with them: a lock that one holds is held for
 * slots. */
#define _GNU_SOURCE
#include "threads.h"
#include "../unit/unit.h"

#include <errno.h>
#include <pthread.h>
#include <sched.h>
#include <semaphore.h>
#include <setjmp.h>
#include <signal.h>

enum { WORKERS = 2 * DISPATCH_DEPTH, STACK = 262144, HALT = SIGUSR1, GO_ON = SIGUSR2 };

static struct worker {
    struct frame frame;
    pthread_t thread;
    sigjmp_buf home; /* where the thread has no job */
    sem_t start;
    bool is_busy;   /* it has a job; of the executive's thread alone */
    bool may_run;   /* atomic: its job has the slot */
    bool is_given;  /* atomic: the job's function is to be called */
    bool is_done;   /* atomic: it has returned */
    bool goes_home; /* atomic: the job is dropped */
} workers[WORKERS];

static __thread struct worker *self;
static struct worker *turn; /* who has the slot, or NULL */
static bool starts;         /* it starts in this slot */
static bool stopping, quit;
static sem_t is_up; /* a thread has come so far that it may be halted */

static bool is_set(const bool *flag)
{
    return __atomic_load_n(flag, __ATOMIC_ACQUIRE);
}

static void set(bool *flag, bool value)
{
    __atomic_store_n(flag, value, __ATOMIC_RELEASE);
}

/* On the job's own thread. What counts is what is set: of two signals of a kind one may be lost.
 * GO_ON is let through in sigsuspend alone, so it cannot come between the look and the wait. */
static void halted(int number)
{
    int kept = errno;
    sigset_t all;
    (void)number;
    sigfillset(&all);
    sigdelset(&all, GO_ON);
    while (!is_set(&self->may_run)) sigsuspend(&all);
    errno = kept;
    if (__atomic_exchange_n(&self->goes_home, false, __ATOMIC_ACQ_REL)) {
        siglongjmp(self->home, 1);
    }
}

static void woken(int number)
{
    (void)number;
}

/* A job that was dropped before its thread came to it leaves a post behind, without a job. */
static void *work(void *words)
{
    self = words;
    if (sigsetjmp(self->home, 1) == 0) sem_post(&is_up);
    for (;;) {
        while (sem_wait(&self->start) != 0) {}
        if (is_set(&quit)) return NULL;
        if (!__atomic_exchange_n(&self->is_given, false, __ATOMIC_ACQ_REL)) continue;
        unit_run(&self->frame);
        while (!unit_has_rows() && self->frame.had < self->frame.slots) sched_yield();
        set(&self->is_done, true);
    }
}

static bool has_handlers(void)
{
    struct sigaction action = {0};
    sigset_t go_on;
    action.sa_handler = woken;
    sigfillset(&action.sa_mask);
    if (sigaction(GO_ON, &action, NULL) != 0) return false;
    action.sa_handler = halted;
    action.sa_flags = SA_RESTART;
    if (sigaction(HALT, &action, NULL) != 0) return false;
    sigemptyset(&go_on);
    sigaddset(&go_on, GO_ON);
    return pthread_sigmask(SIG_BLOCK, &go_on, NULL) == 0;
}

bool threads_open(int priority)
{
    struct sched_param given = {0};
    pthread_attr_t small;
    unsigned place;
    given.sched_priority = priority;
    if (!has_handlers() || sem_init(&is_up, 0, 0) != 0) return false;
    if (pthread_attr_init(&small) != 0) return false;
    (void)pthread_attr_setstacksize(&small, STACK);
    for (place = 0; place < WORKERS; place++) {
        struct worker *worker = &workers[place];
        int policy = priority > 0 ? SCHED_FIFO : SCHED_OTHER;
        if (sem_init(&worker->start, 0, 0) != 0) return false;
        if (pthread_create(&worker->thread, &small, work, worker) != 0) return false;
        if (pthread_setschedparam(worker->thread, policy, &given) != 0) return false;
        while (sem_wait(&is_up) != 0) {}
    }
    return pthread_attr_destroy(&small) == 0;
}

static void halt(struct worker *worker)
{
    set(&worker->may_run, false);
    pthread_kill(worker->thread, HALT);
}

static void go_on(struct worker *worker)
{
    set(&worker->may_run, true);
    pthread_kill(worker->thread, GO_ON);
}

/* Its job is dropped: the thread leaves it, and waits for another one. */
static void send_home(struct worker *worker)
{
    set(&worker->is_given, false);
    set(&worker->goes_home, true);
    go_on(worker);
    pthread_kill(worker->thread, HALT);
    worker->is_busy = false;
}

bool threads_next_slot(void)
{
    struct worker *had = turn;
    unsigned place;
    if (had != NULL) had->frame.ended = is_set(&had->is_done);
    unit_tick();
    for (place = 0; place < WORKERS; place++) {
        struct worker *worker = &workers[place];
        if (worker->is_busy && worker->frame.ended) worker->is_busy = false;
        else if (worker->is_busy && worker->frame.dropped) send_home(worker);
    }
    if (had != NULL && had != turn && had->is_busy) halt(had);
    if (turn != NULL && turn != had) go_on(turn);
    if (turn != NULL && starts) sem_post(&turn->start);
    return !stopping;
}

void threads_close(void)
{
    unsigned place;
    set(&quit, true);
    for (place = 0; place < WORKERS; place++) {
        if (workers[place].is_busy) send_home(&workers[place]);
        go_on(&workers[place]);
        sem_post(&workers[place].start);
        pthread_join(workers[place].thread, NULL);
        sem_destroy(&workers[place].start);
    }
}

/* The calls of dispatch.h. */

static struct worker *worker_of(const struct frame *frame)
{
    return &workers[((const struct worker *)(const void *)frame) - workers];
}

void dispatch_give(struct frame *frame)
{
    frame->had++;
    turn = worker_of(frame);
    starts = false;
}

void dispatch_begin(const struct frame *frame)
{
    unsigned place = 0;
    while (place < WORKERS && workers[place].is_busy) place++;
    if (place == WORKERS) unit_fault("threads", SS_BAD_NUMBER);
    turn = &workers[place];
    turn->frame = *frame;
    turn->frame.had = 1;
    turn->is_busy = true;
    set(&turn->is_done, false);
    set(&turn->is_given, true);
    starts = true;
}

void dispatch_idle(void)
{
    turn = NULL;
}

void dispatch_stop(void)
{
    turn = NULL;
    stopping = true;
}

struct frame *dispatch_had(void)
{
    return turn != NULL ? &turn->frame : NULL;
}

struct frame *dispatch_find(const ss_key *key)
{
    unsigned place;
    for (place = 0; place < WORKERS; place++) {
        struct frame *frame = &workers[place].frame;
        if (workers[place].is_busy && !frame->ended && !frame->dropped &&
            frame->key.kind == key->kind && frame->key.group == key->group &&
            frame->key.task == key->task && frame->key.number == key->number) {
            return frame;
        }
    }
    return NULL;
}

/* No job lies on another one. Of soft work that has started one is told, so that watch.c lets no
 * second one wait: else there would have to be a thread for each. */
struct frame *dispatch_under(const struct frame *frame)
{
    unsigned place;
    for (place = 0; frame->key.kind == SS_SOFT && place < WORKERS; place++) {
        struct frame *other = &workers[place].frame;
        if (workers[place].is_busy && other != frame && other->key.kind == SS_SOFT) return other;
    }
    return NULL;
}
