/* Calls from where the header allows them: an executive that one thread opens, others call in turn
 * and another closes; and one whose slots pass in a signal's handler, as in a timer's interrupt,
 * while the main program masks the signal for its own calls. What happened is done once more
 * straight on, and each answer is the same.
 * usage: contexts TABLE */
#define _DEFAULT_SOURCE
#include "common.h"

#include <pthread.h>
#include <signal.h>
#include <string.h>
#include <sys/time.h>

enum { EVENTS = 20000, SLOTS = 4000 };

static ss_slots slots, straight;
static uint8_t table[4194304];
static size_t bytes;

/* A slot with its job, or a request with its answer. */
static struct event {
    bool is_slot;
    ss_key ran;
    uint32_t work, within;
    ss_told told;
} events[EVENTS];
static volatile sig_atomic_t count;
static uint32_t row;

static void pass(void)
{
    struct event *event = &events[count];
    event->is_slot = true;
    if (ss_slot(&slots, &event->ran) != SS_OK) abort();
    count++;
}

static void request(void)
{
    struct event *event = &events[count];
    event->is_slot = false;
    event->work = 1 + below(5);
    event->within = below(40);
    if (ss_firm(&slots, ++row, event->work, event->within, &event->told) != SS_OK) abort();
    count++;
}

static bool same_key(const ss_key *one, const ss_key *other)
{
    return one->kind == other->kind && one->group == other->group && one->task == other->task &&
           one->number == other->number;
}

/* All that happened, on another executive and without interruption. */
static void again(void)
{
    uint32_t other = 0;
    ss_told told;
    ss_key ran;
    int at;
    HOLDS(ss_open(&straight, table, bytes, &told) == SS_OK);
    for (at = 0; at < count; at++) {
        struct event *event = &events[at];
        if (event->is_slot) {
            HOLDS(ss_slot(&straight, &ran) == SS_OK && same_key(&ran, &event->ran));
        } else {
            HOLDS(ss_firm(&straight, ++other, event->work, event->within, &told) == SS_OK);
            HOLDS(told.answer == event->told.answer && told.second == event->told.second);
        }
    }
    HOLDS(ss_close(&straight) == SS_OK);
    count = 0;
    row = 0;
}

static void *open_it(void *unused)
{
    ss_told fault;
    HOLDS(ss_open(&slots, table, bytes, &fault) == SS_OK);
    return unused;
}

static void *some_calls(void *unused)
{
    int left = 100;
    for (; left > 0; left--) {
        if (below(3) == 0) request();
        pass();
    }
    return unused;
}

static void *close_it(void *unused)
{
    HOLDS(ss_close(&slots) == SS_OK);
    return unused;
}

static void on_a_thread(void *(*work)(void *))
{
    pthread_t thread;
    if (pthread_create(&thread, NULL, work, NULL) != 0) exit(2);
    pthread_join(thread, NULL);
}

static void by_threads(void)
{
    int left = 40;
    on_a_thread(open_it);
    for (; left > 0; left--) on_a_thread(some_calls);
    on_a_thread(close_it);
    again();
}

static volatile sig_atomic_t passed_slots;

static void tick(int number)
{
    (void)number;
    if (passed_slots == SLOTS) return;
    pass();
    passed_slots++;
}

static void by_a_handler(void)
{
    struct sigaction action;
    struct itimerval each = {{0, 50}, {0, 50}};
    sigset_t timer;
    memset(&action, 0, sizeof action);
    action.sa_handler = tick;
    sigemptyset(&timer);
    sigaddset(&timer, SIGALRM);
    open_it(NULL);
    if (sigaction(SIGALRM, &action, NULL) != 0 || setitimer(ITIMER_REAL, &each, NULL) != 0) exit(2);
    while (passed_slots < SLOTS) {
        sigprocmask(SIG_BLOCK, &timer, NULL);
        if (count < EVENTS - SLOTS) request();
        sigprocmask(SIG_UNBLOCK, &timer, NULL);
    }
    each.it_value.tv_usec = 0;
    setitimer(ITIMER_REAL, &each, NULL);
    close_it(NULL);
    again();
}

int main(int words, char **word)
{
    if (words != 2) return 2;
    bytes = read_table(word[1], table, sizeof table);
    by_threads();
    by_a_handler();
    printf("contexts: %lu passed, %lu failed\n", passed, failed);
    return failed > 0 ? 1 : 0;
}
