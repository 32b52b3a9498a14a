/* Runs a unit on a bench: random arrivals by the inbox, jobs that end early, on time or too late.
 * Prints its record, and on standard error what it counted. What has to hold of each run:
 * - jobs nest on two stacks (and how often they would not on one is counted);
 * - each job that is not stopped has ended by its derived deadline, with its overrun;
 * - with `chains` each task runs after the one before it in its graph, with its overrun.
 * With `rows` a thousand rows are left: afterwards the plan goes on without arrivals.
 * usage: unit TABLE SLOTS SEED LEVEL [chains | rows]   (LEVEL: 1 arrivals, 2 runs, 3 spans) */
#include "common.h"
#include "../unit/unit.h"

#include <string.h>

enum { STARTED = 2 * DISPATCH_DEPTH, ROWS = 64000 };

/* Jobs that have started and not ended, in the order in which they started. Of an overrun the key
 * is that of the request, and `first` the one it began with. */
static struct started {
    const ss_key *key;
    ss_key first;
} started[STARTED];
static unsigned count;

static uint8_t table[4194304];
static bool has_chains;
static uint32_t first; /* the row before the first one */
static unsigned long jobs, early, went_on, stopped, nest, single, refused, withdrawn;
static unsigned long asked, crowded; /* crowded: not asked for, since too many wait */
static uint32_t accepted[8]; /* rows of requests */

void unit_fault(const char *what, uint32_t status)
{
    fflush(stdout);
    fprintf(stderr, "unit: %s: status %u, slot %lu\n", what, (unsigned)status,
            (unsigned long)unit.now);
    exit(1);
}

/* Takes the job out of the list. */
static void gone(const ss_key *key)
{
    unsigned place = 0, next;
    while (place < count && started[place].key != key) place++;
    if (place == count) return;
    for (next = place + 1; next < count; next++) started[next - 1] = started[next];
    count--;
}

/* The job goes on: which of those that started later have not ended? */
static void look_above(const ss_key *key)
{
    unsigned place = count;
    bool own = false, other = false;
    while (place > 0 && started[--place].key != key) {
        if ((started[place].key->kind == SS_SOFT) == (key->kind == SS_SOFT)) own = true;
        else other = true;
    }
    nest += own;
    single += own || other;
}

/* No task before this one in its graph is under way. */
static void look_before(const ss_key *key)
{
    unsigned place;
    for (place = 0; has_chains && key->kind == SS_OFFLINE && place < count; place++) {
        const ss_key *other = &started[place].first;
        HOLDS(other->kind != SS_OFFLINE || other->group != key->group ||
              other->number != key->number || other->task >= key->task);
    }
}

/* How many slots the job takes: what it may have, some less, or some more. */
static uint32_t slots_of(const struct frame *frame)
{
    uint32_t dice = unit.row - first < ROWS ? below(100) : 50;
    if (dice < 20) return 1 + below(frame->slots);
    if (dice >= 90) return frame->slots + 1 + below(2);
    return frame->slots;
}

void unit_run(const struct frame *frame)
{
    const ss_key *key = &frame->key;
    uint32_t declared = frame->slots, slots = slots_of(frame), slot;
    jobs++;
    early += slots < frame->slots;
    look_before(key);
    if (count == STARTED) unit_fault("started", SS_BAD_NUMBER);
    started[count].key = key;
    started[count++].first = *key;
    for (slot = 1; slot < slots; slot++) {
        port_strike();
        look_above(key);
    }
    went_on += slots > declared;
    HOLDS(key->kind == SS_SOFT || unit.now <= frame->due);
    gone(key);
}

uint32_t unit_more(const struct frame *frame)
{
    (void)frame;
    return below(200) == 0 ? SS_OFFER_LIMIT + 1 : below(4);
}

void unit_stopped(const struct frame *frame)
{
    stopped++;
    gone(&frame->key);
}

void unit_told(const struct arrival *arrival, uint32_t row, const ss_told *told)
{
    unsigned place;
    asked++;
    HOLDS(row == unit.row || row == 0);
    HOLDS(row == 0 || arrival->number > 0 || arrival->kind == ARRIVAL_SPORADIC);
    crowded += row == 0 && arrival->number > 0 && arrival->kind != ARRIVAL_SPORADIC;
    if (row == 0) return;
    if (arrival->kind == ARRIVAL_FIRM && told->answer == SS_ACCEPTED) accepted[below(8)] = row;
    if (arrival->kind == ARRIVAL_FIRM && told->answer != SS_ACCEPTED) refused++;
    if (arrival->kind != ARRIVAL_WITHDRAW || told->answer != SS_FREED) return;
    withdrawn++;
    for (place = 0; place < count; place++) {
        const ss_key *key = started[place].key;
        if (key->kind == SS_FIRM && key->number == arrival->number) {
            gone(key);
            return;
        }
    }
}

static void put(enum arrival_kind kind, uint32_t number, uint32_t within)
{
    struct arrival arrival = {ARRIVAL_SOFT, 0, 0, 0};
    arrival.kind = kind;
    arrival.number = number;
    arrival.within = within;
    (void)inbox_put(&unit.inbox, &arrival);
}

void bench_devices(void)
{
    uint32_t row = accepted[below(8)];
    if (unit.row - first >= ROWS) return;
    if (unit.now / 1000 % 2 > 0) return; /* a thousand slots are quiet */
    if (below(12) == 0) put(ARRIVAL_SOFT, 1 + below(6), 0);
    if (below(8) == 0) put(ARRIVAL_FIRM, 1 + below(8), below(unit.plan.cycle));
    if (below(16) == 0) put(ARRIVAL_FIRM, 1 + below(4), below(30));
    if (unit.plan.alarms > 0 && below(10) == 0) put(ARRIVAL_SPORADIC, below(unit.plan.alarms), 0);
    if (row > 0 && below(40) == 0) put(ARRIVAL_WITHDRAW, row, 0);
    if (below(50) == 0) put((enum arrival_kind)below(2), 0, 5); /* no slots: out of range */
    if (below(50) == 0) put(ARRIVAL_SPORADIC, unit.plan.alarms, 0);
}

static bool to_stdout(const char *line, size_t length)
{
    return fwrite(line, 1, length, stdout) == length;
}

int main(int words, char **word)
{
    unsigned long seed;
    uint32_t status;
    ss_told fault;
    if (words < 5) return 2;
    for (seed = strtoul(word[3], NULL, 10); seed > 0; seed--) (void)below(7);
    has_chains = words > 5 && strcmp(word[5], "chains") == 0;
    status = unit_open(table, read_table(word[1], table, sizeof table),
                       (enum record_level)strtoul(word[4], NULL, 10), to_stdout, &fault);
    if (status != SS_OK) unit_fault("open", status);
    if (words > 5 && strcmp(word[5], "rows") == 0) first = unit.row = UINT32_MAX - 1000;
    unit.until = strtoul(word[2], NULL, 10);
    dispatch_run();
    if (ss_close(&unit.slots) != SS_OK) unit_fault("close", SS_CLOSED);
    HOLDS(nest == 0);
    HOLDS(unit.record.lost == 0);
    HOLDS(crowded * 4 <= asked || first > 0);
    HOLDS(first == 0 || !unit_has_rows());
    fprintf(stderr, "slots %lu rows %lu jobs %lu early %lu more %lu stopped %lu refused %lu"
            " withdrawn %lu crowded %lu nest %lu single %lu\n", (unsigned long)unit.now,
            (unsigned long)unit.row, jobs, early, went_on, stopped, refused, withdrawn,
            crowded, nest, single);
    return failed > 0 ? 1 : 0;
}
