/* A control unit on bare metal: the plan's jobs, and a device whose interrupts bring arrivals. What
 * a job would do is left out: it uses up slots, and watches that no register is changed meanwhile.
 * The record goes over the serial line as a trace, and after it a line of what was counted.
 *   SLOT    a slot in microseconds     CYCLES  how many cycles of the plan it runs */
#include "board.h"
#include "../unit/unit.h"

#ifndef SLOT
#define SLOT 1000
#endif
#ifndef CYCLES
#define CYCLES 4
#endif

extern const uint8_t plan_table[], plan_table_end[]; /* table.S */

uint32_t hold(const volatile uint32_t *count, uint32_t last, uint64_t pattern); /* hold.S */

static uint32_t jobs, stopped, lost, changed;

/* A row of numbers that look random, below this one: one for the devices, and one for the jobs,
 * which they interrupt. */
static uint32_t below(uint64_t *state, uint32_t count)
{
    *state = *state * 6364136223846793005u + 1442695040888963407u;
    return (uint32_t)(*state >> 33) % count;
}

/* Uses up slots: now and then fewer than its worst case, and seldom more. */
void unit_run(const struct frame *frame)
{
    static uint64_t state = 2;
    const ss_key *key = &frame->key;
    const volatile uint32_t *had = &frame->had;
    uint32_t slots = frame->slots, dice = below(&state, 100), slot;
    uint64_t pattern = key->number * 1000003 + key->kind * 77 + key->group * 7 + key->task;
    if (dice < 20) slots = 1 + below(&state, slots);
    if (dice >= 96) slots += 1 + below(&state, 2);
    for (slot = 1; slot < slots; slot++) changed += hold(had, slot, pattern);
    jobs++;
}

uint32_t unit_more(const struct frame *frame)
{
    (void)frame;
    return 2;
}

void unit_stopped(const struct frame *frame)
{
    (void)frame;
    stopped++;
}

static uint32_t last_request; /* the row of the request that was accepted last */

void unit_told(const struct arrival *arrival, uint32_t row, const ss_told *told)
{
    if (arrival->kind == ARRIVAL_FIRM && told->answer == SS_ACCEPTED) last_request = row;
}

/* When the device comes next: at some eighth of a slot, and never at its start. So the record does
 * not hang on how fast the code is. */
static uint32_t until_next(uint64_t *state)
{
    static uint32_t place = 4; /* the eighth of a slot at which it came */
    uint32_t eighths = 2 + below(state, 96);
    if ((place + eighths) % 8 == 0) eighths++;
    place = (place + eighths) % 8;
    return eighths * SLOT / 8;
}

/* The interrupt of the device: it brings one arrival, and comes again at some time. */
void board_device(void)
{
    static uint64_t state = 1;
    struct arrival arrival = {ARRIVAL_SOFT, 0, 0, 0};
    uint32_t dice = below(&state, 10);
    arrival.number = 1 + below(&state, 4);
    arrival.within = below(&state, 60);
    if (dice < 5) arrival.kind = ARRIVAL_FIRM;
    if (dice >= 7 && unit.plan.alarms > 0) {
        arrival.kind = ARRIVAL_SPORADIC;
        arrival.number = below(&state, unit.plan.alarms);
    }
    if (dice == 9 && last_request > 0) {
        arrival.kind = ARRIVAL_WITHDRAW;
        arrival.number = last_request;
    }
    if (!inbox_put(&unit.inbox, &arrival)) lost++;
    board_device_in(until_next(&state));
}

static void put_number(const char *text, uint32_t number)
{
    char digits[10];
    size_t length = 0, at;
    for (at = 0; text[at] != 0; at++) board_put(&text[at], 1);
    do digits[length++] = (char)('0' + number % 10);
    while ((number /= 10) > 0);
    while (length > 0) board_put(&digits[--length], 1);
}

void unit_fault(const char *what, uint32_t status)
{
    put_number(what, status);
    board_put("\n", 1);
    board_off();
}

int main(void)
{
    ss_told fault;
    uint32_t status = unit_open(plan_table, (size_t)(plan_table_end - plan_table), RECORD_SPANS,
                                board_put, &fault);
    if (status != SS_OK) unit_fault("open ", status);
    unit.until = (uint64_t)CYCLES * unit.plan.cycle;
    board_start(SLOT);
    board_device_in(SLOT / 2);
    dispatch_run();
    put_number("# jobs ", jobs);
    put_number(" stopped ", stopped);
    put_number(" lost ", lost);
    put_number(" late ", board_late);
    put_number(" changed ", changed);
    board_put("\n", 1);
    board_off();
}
