/* Tries the parts of a unit by themselves: the inbox between two threads, the ring of the recorder,
 * and what is read of a plan against what `slotshift show` prints of it.
 * usage: parts TABLE < SHOWN */
#include "common.h"
#include "../unit/inbox.h"
#include "../unit/plan.h"
#include "../unit/record.h"

#include <pthread.h>
#include <sched.h>
#include <string.h>

enum { MESSAGES = 20000 };

static struct inbox inbox;
static struct record_ring ring;

static void full_and_empty(void)
{
    struct arrival arrival = {ARRIVAL_FIRM, 0, 7, 9}, told;
    uint32_t number, round;
    HOLDS(!inbox_take(&inbox, &told) && inbox_count(&inbox) == 0);
    inbox.put = inbox.taken = UINT32_MAX - 40; /* both numbers pass their end */
    for (round = 0; round < 3; round++) {
        for (number = 0; number < INBOX_PLACES; number++) {
            arrival.number = number;
            HOLDS(inbox_put(&inbox, &arrival));
        }
        HOLDS(!inbox_put(&inbox, &arrival) && inbox_count(&inbox) == INBOX_PLACES);
        for (number = 0; number < INBOX_PLACES; number++) {
            HOLDS(inbox_take(&inbox, &told) && told.number == number && told.within == 7);
        }
        HOLDS(!inbox_take(&inbox, &told));
    }
}

static void *writer(void *unused)
{
    struct arrival arrival = {ARRIVAL_SOFT, 0, 0, 0};
    while (arrival.number < MESSAGES) {
        arrival.within = arrival.number ^ 0x5a5a5a5au;
        if (inbox_put(&inbox, &arrival)) arrival.number++;
        else sched_yield();
    }
    return unused;
}

/* Each message comes once, whole and in order. */
static void two_threads(void)
{
    pthread_t thread;
    uint32_t next = 0;
    struct arrival told;
    if (pthread_create(&thread, NULL, writer, NULL) != 0) exit(2);
    while (next < MESSAGES) {
        if (!inbox_take(&inbox, &told)) {
            sched_yield();
            continue;
        }
        if (told.number != next || told.within != (next ^ 0x5a5a5a5au)) break;
        next++;
    }
    HOLDS(next == MESSAGES);
    if (next == MESSAGES) (void)pthread_join(thread, NULL);
}

/* Lines come out whole, and one that does not fit is not put. */
static void lines_in_a_ring(void)
{
    static char wanted[RECORD_RING], got[RECORD_RING];
    size_t put = 0, length, round;
    ring.put = ring.taken = UINT32_MAX - 100;
    for (round = 0; round < 3; round++) {
        for (put = 0; (length = 1 + below(90)) <= RECORD_RING - put; put += length) {
            memset(wanted + put, (int)('a' + below(26)), length);
            HOLDS(record_to_ring(&ring, wanted + put, length));
        }
        HOLDS(!record_to_ring(&ring, wanted, length));
        HOLDS(record_from_ring(&ring, got, 100) == 100);
        HOLDS(record_from_ring(&ring, got + 100, sizeof got) == put - 100);
        HOLDS(memcmp(got, wanted, put) == 0 && record_from_ring(&ring, got, 1) == 0);
    }
}

/* The plan's jobs, by the text of each key, are those that are shown. */
static void plan_as_shown(const uint8_t *table, size_t bytes)
{
    static struct plan plan;
    ss_slots slots = {0};
    ss_told fault;
    uint32_t graph, task, jobs = 0;
    char line[128], text[SS_KEY_TEXT + 1], shown[80];
    unsigned long start, due, work;
    HOLDS(ss_open(&slots, table, bytes, &fault) == SS_OK && plan_read(&plan, table));
    while (fgets(line, sizeof line, stdin) != NULL) {
        ss_key key = {SS_OFFLINE, 0, 0, 0};
        size_t length = 0;
        bool found = false;
        if (sscanf(line, "job %79s %lu %lu %lu", shown, &start, &due, &work) != 4) continue;
        key.number = strtoul(strchr(shown, '#') + 1, NULL, 10);
        for (graph = 0; graph < plan.graphs; graph++) {
            for (task = 0; task < PLAN_TASKS && !found; task++) {
                key.group = graph;
                key.task = task;
                if (ss_key_text(&slots, &key, (uint8_t *)text, SS_KEY_TEXT, &length) != SS_OK) {
                    break;
                }
                text[length] = 0;
                found = strcmp(text, shown) == 0;
            }
            if (found) break;
        }
        HOLDS(found && plan_due(&plan, &key) == due && plan_task_of(&plan, &key)->slots == work);
        jobs++;
    }
    HOLDS(jobs == plan.jobs && jobs > 0);
    HOLDS(ss_close(&slots) == SS_OK);
}

int main(int words, char **word)
{
    static uint8_t table[4194304];
    if (words != 2) return 2;
    plan_as_shown(table, read_table(word[1], table, sizeof table));
    full_and_empty();
    two_threads();
    lines_in_a_ring();
    printf("parts: %lu passed, %lu failed\n", passed, failed);
    return failed > 0 ? 1 : 0;
}
