/* Measures the calls over a table: how long each takes, and how much stack they use beyond their
 * caller's. It judges nothing.
 * usage: times TABLE CYCLE   (CYCLE: the slots of its cycle, at whose end more is to do) */
#define _POSIX_C_SOURCE 200809L
#include "common.h"

#include <pthread.h>
#include <string.h>
#include <time.h>

enum { SLOTS = 100000, CHANGES = 31, STACK = 1 << 20, PAINT = 0x5a };

/* What is measured: each call, and once more the slots that end a cycle. */
enum { SLOT, CYCLE_END, FIRM, SOFT, SPORADIC, DONE, WITHDRAW, GET_SPAN, KEY_TEXT, CARRY, CHANGE,
       KINDS };

static const char *const names[KINDS] = {
    "ss_slot", "at a cycle's end", "ss_firm", "ss_soft", "ss_sporadic", "ss_done",
    "ss_withdraw", "ss_get_span", "ss_key_text", "ss_carry", "ss_change",
};

static uint8_t table[4194304];
static size_t bytes;
static unsigned long cycle;
static uint32_t times[KINDS][SLOTS], counts[KINDS];
static uint8_t stack[STACK] __attribute__((aligned(4096)));

static uint64_t clock_now(void)
{
    struct timespec now;
    clock_gettime(CLOCK_MONOTONIC, &now);
    return (uint64_t)now.tv_sec * 1000000000u + (uint64_t)now.tv_nsec;
}

/* Notes the time of a call that began then, which it tells. */
static uint32_t note(int kind, uint64_t start, uint32_t status)
{
    uint32_t took = (uint32_t)(clock_now() - start);
    if (status != SS_OK) exit(1);
    if (counts[kind] < SLOTS) times[kind][counts[kind]++] = took;
    return took;
}

static int compare(const void *a, const void *b)
{
    uint32_t x = *(const uint32_t *)a, y = *(const uint32_t *)b;
    return (x > y) - (x < y);
}

/* The median of what was measured, in nanoseconds, and of a thousand times or more the 99.9 %. */
static void print_times(int kind)
{
    uint32_t count = counts[kind], *all = times[kind];
    if (count == 0) return;
    qsort(all, count, sizeof *all, compare);
    printf(" %s %u", names[kind], all[count / 2]);
    if (count >= 1000) printf(", %u", all[count - count / 1000 - 1]);
    putchar(';');
}

/* An arrival of a kind by chance, where `ran` had the last slot. */
static void arrive(ss_slots *slots, uint32_t row, const ss_key *ran, bool sporadic)
{
    uint32_t kind = below(6), work = 1 + below(6), within = 8 + below(60);
    ss_told told;
    uint64_t start = clock_now();
    if (kind == 0) note(SOFT, start, ss_soft(slots, row, work, &told));
    else if (kind == 1 && sporadic) note(SPORADIC, start, ss_sporadic(slots, row, 0, &told));
    else if (kind == 2 && ran->kind != SS_NONE) note(DONE, start, ss_done(slots, row, ran, &told));
    else if (kind == 3) note(WITHDRAW, start, ss_withdraw(slots, row, row - 1, &told));
    else note(FIRM, start, ss_firm(slots, row, work, within, &told));
}

/* What else is asked for after a slot: one of the spans, and the text of a key. */
static void ask(ss_slots *slots, const ss_key *ran)
{
    uint8_t text[SS_KEY_TEXT];
    uint32_t count;
    size_t length;
    ss_span span;
    uint64_t start;
    if (ss_span_count(slots, &count) != SS_OK) exit(1);
    start = clock_now();
    note(GET_SPAN, start, ss_get_span(slots, below(count < 8 ? count : 8), &span));
    start = clock_now();
    if (ran->kind == SS_NONE) return;
    note(KEY_TEXT, start, ss_key_text(slots, ran, text, sizeof text, &length));
}

/* Changes to the same plan, in slots that follow one another: such as are made are noted. */
static void change(ss_slots *slots, uint32_t row)
{
    uint32_t n;
    for (n = 0; n < CHANGES; n++) {
        ss_slots next = {0};
        uint32_t status;
        uint64_t start;
        ss_told told;
        ss_key ran;
        if (ss_open(&next, table, bytes, &told) != SS_OK) exit(1);
        start = clock_now();
        status = ss_carry(slots, &next, row + 1, SS_GRAPHS, &told);
        if (status == SS_OK) note(CARRY, start, status);
        if (ss_close(&next) != SS_OK || ss_slot(slots, &ran) != SS_OK) exit(1);
    }
    for (n = 0; n < CHANGES; n++) {
        ss_told told;
        uint64_t start = clock_now();
        uint32_t status = ss_change(slots, table, bytes, row + 1, SS_DROP, &told);
        if (status == SS_OK) note(CHANGE, start, status);
    }
}

static void *run(void *at)
{
    ss_slots slots = {0};
    ss_told told;
    ss_key ran = {0};
    uint32_t slot, row = 0, took;
    uint64_t start = clock_now(), opened, closed;
    bool sporadic;
    if (ss_open(&slots, table, bytes, &told) != SS_OK) exit(1);
    opened = clock_now() - start;
    sporadic = ss_sporadic(&slots, ++row, 0, &told) == SS_OK;
    memset(counts, 0, sizeof counts);
    for (slot = 0; slot < SLOTS; slot++) {
        while (below(4) == 0) arrive(&slots, ++row, &ran, sporadic);
        start = clock_now();
        took = note(SLOT, start, ss_slot(&slots, &ran));
        if ((slot + 1) % cycle == 0) times[CYCLE_END][counts[CYCLE_END]++] = took;
        if (below(8) == 0) ask(&slots, &ran);
    }
    change(&slots, row);
    start = clock_now();
    if (ss_close(&slots) != SS_OK) exit(1);
    closed = clock_now() - start;
    if (at == NULL) printf("ss_open %u us, ss_close %u us; median and 99.9 %% in ns:",
                           (unsigned)(opened / 1000), (unsigned)(closed / 1000));
    return NULL;
}

static void *nothing(void *at)
{
    return at;
}

/* How much of the painted stack a thread of this function touches. */
static size_t stack_of(void *(*function)(void *))
{
    pthread_attr_t how;
    pthread_t thread;
    size_t clean = 0;
    memset(stack, PAINT, sizeof stack);
    pthread_attr_init(&how);
    pthread_attr_setstack(&how, stack, sizeof stack);
    if (pthread_create(&thread, &how, function, stack) != 0) exit(1);
    pthread_join(thread, NULL);
    while (clean < sizeof stack && stack[clean] == PAINT) clean++;
    return sizeof stack - clean;
}

int main(int count, char **words)
{
    size_t bare, used;
    int kind;
    if (count != 3) return 2;
    bytes = read_table(words[1], table, sizeof table);
    cycle = strtoul(words[2], NULL, 10);
    if (cycle == 0) return 2;
    run(NULL);
    for (kind = 0; kind < KINDS; kind++) print_times(kind);
    bare = stack_of(nothing);
    used = stack_of(run);
    printf(" stack %zu bytes beyond a bare thread\n", used - bare);
    return 0;
}
