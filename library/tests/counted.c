/* Counts the instructions of each call on bare metal, under qemu with -icount shift=0: there the
 * cycle counter of the core counts them one by one. Arrivals of every kind come, denser than in
 * most units. It prints a row for each call: how often, the mean, and the most. First it runs slot
 * by slot, for SLOTS slots at least. Then it looks ahead and passes slots, STEPS times, and changes
 * from the plan to itself. */
#include "../bare/board.h"
#include "../slotexec.h"
#include "../unit/plan.h"

#ifndef SLOTS
#define SLOTS 20000
#endif
#ifndef STEPS
#define STEPS 4800
#endif

extern const uint8_t plan_table[], plan_table_end[];

enum call { OPEN, CLOSE, SLOT, CYCLE, SOFT, FIRM, SPORADIC, DONE, WITHDRAW, SPAN, TEXT, AHEAD, PASS, JOB,
    CARRY, CARRY_SOFT, CHANGE, CHANGE_SOFT, CALLS };

static struct {
    const char *name;
    uint64_t count, sum, most;
} counted[CALLS] = {{"ss_open", 0, 0, 0}, {"ss_close", 0, 0, 0}, {"ss_slot", 0, 0, 0},
    {"ss_slot, end of a cycle", 0, 0, 0}, {"ss_soft", 0, 0, 0}, {"ss_firm", 0, 0, 0},
    {"ss_sporadic", 0, 0, 0}, {"ss_done", 0, 0, 0}, {"ss_withdraw", 0, 0, 0},
    {"ss_get_span", 0, 0, 0}, {"ss_key_text", 0, 0, 0}, {"ss_ahead", 0, 0, 0}, {"ss_pass", 0, 0, 0},
    {"ss_get_job", 0, 0, 0}, {"ss_carry", 0, 0, 0}, {"ss_carry_with_soft", 0, 0, 0},
    {"ss_change", 0, 0, 0}, {"ss_change_with_soft", 0, 0, 0}};

static ss_slots slots, other;
static ss_told told;
static uint32_t granted, refused; /* changes of plan */
static struct plan plan;
static uint32_t row;

/* What board.c calls of a unit: none is here. */
void dispatch_slot_over(void);
void dispatch_slot_over(void) {}
void board_device(void) {}

static uint64_t now(void)
{
    uint64_t count;
    __asm__ volatile("isb\n mrs %0, pmccntr_el0" : "=r"(count)::"memory");
    return count;
}

static void start_counter(void)
{
    __asm__ volatile("msr pmcr_el0, %0" ::"r"(UINT64_C(0x41)));
    __asm__ volatile("msr pmcntenset_el0, %0\n isb" ::"r"(UINT64_C(1) << 31));
}

static void note(enum call call, uint64_t instructions)
{
    counted[call].count++;
    counted[call].sum += instructions;
    if (instructions > counted[call].most) counted[call].most = instructions;
}

static uint32_t below(uint32_t count)
{
    static uint64_t state = 20260101;
    state = state * 6364136223846793005u + 1442695040888963407u;
    return (uint32_t)(state >> 33) % count;
}

static void put_text(const char *text)
{
    size_t length = 0;
    while (text[length] != 0) length++;
    board_put(text, length);
}

static void put_number(uint64_t number)
{
    char digits[20];
    size_t length = 0;
    do digits[length++] = (char)('0' + number % 10);
    while ((number /= 10) > 0);
    while (length > 0) board_put(&digits[--length], 1);
}

/* Ends the run where a call did not do what it says. */
static void want(uint32_t status)
{
    if (status == SS_OK) return;
    put_text("status ");
    put_number(status);
    put_text("\n");
    board_off();
}

#define COUNT(call, made) do { \
        uint64_t from_ = now(); \
        uint32_t status_ = (made); \
        note(call, now() - from_); \
        want(status_); \
    } while (0)

static uint32_t requests[8];

static void arrivals(const ss_key *ran)
{
    uint32_t place = below(8);
    if (ran->kind != SS_NONE && below(5) == 0) COUNT(DONE, ss_done(&slots, ++row, ran, &told));
    if (below(8) == 0) COUNT(SOFT, ss_soft(&slots, ++row, 1 + below(5), &told));
    if (below(3) == 0) {
        uint32_t within = below(plan.cycle + 1);
        COUNT(FIRM, ss_firm(&slots, ++row, 1 + below(6), within, &told));
        if (told.answer == SS_ACCEPTED) requests[place] = row;
    }
    if (plan.alarms > 0 && below(4) == 0) {
        COUNT(SPORADIC, ss_sporadic(&slots, ++row, below(plan.alarms), &told));
    }
    if (requests[place] > 0 && below(20) == 0) {
        COUNT(WITHDRAW, ss_withdraw(&slots, ++row, requests[place], &told));
    }
}

static void look(const ss_key *ran)
{
    uint8_t text[SS_KEY_TEXT];
    size_t length;
    ss_span span;
    COUNT(SPAN, ss_get_span(&slots, below(8), &span));
    if (ran->kind != SS_NONE) COUNT(TEXT, ss_key_text(&slots, ran, text, sizeof text, &length));
}

static void run(void)
{
    uint64_t end = (4 + SLOTS / plan.cycle) * (uint64_t)plan.cycle, slot;
    ss_key ran = {SS_NONE, 0, 0, 0}, next;
    uint32_t count;
    for (slot = 0; slot < end; slot++) {
        uint64_t from, spent;
        /* every fourth thousand of slots is without arrivals */
        if (slot / 1000 % 4 < 3) arrivals(&ran);
        if (slot % 4 == 0) COUNT(AHEAD, ss_ahead(&slots, 64, &next, &count));
        from = now();
        want(ss_slot(&slots, &ran));
        spent = now() - from;
        note((slot + 1) % plan.cycle == 0 ? CYCLE : SLOT, spent);
        if (slot % 16 == 0) look(&ran);
    }
}

/* A change may be refused. */
static void note_change(enum call call, uint64_t instructions, uint32_t status)
{
    note(call, instructions);
    want(status == SS_REFUSED ? SS_OK : status);
    if (status == SS_REFUSED) refused++;
    else granted++;
}

static size_t table_bytes(void)
{
    return (size_t)(plan_table_end - plan_table);
}

/* Carries what is left over to a second executive, which leaves the first one as it is. */
static void carry(uint32_t keep, bool soft)
{
    uint64_t from, spent;
    uint32_t status;
    want(ss_open(&other, plan_table, table_bytes(), &told));
    from = now();
    status = soft ? ss_carry_with_soft(&slots, &other, row + 1, keep, &told)
                  : ss_carry(&slots, &other, row + 1, keep, &told);
    spent = now() - from;
    note_change(soft ? CARRY_SOFT : CARRY, spent, status);
    COUNT(CLOSE, ss_close(&other));
}

static void change(uint32_t keep, bool soft)
{
    uint64_t from = now(), spent;
    uint32_t status = soft
        ? ss_change_with_soft(&slots, plan_table, table_bytes(), row + 1, keep, &told)
        : ss_change(&slots, plan_table, table_bytes(), row + 1, keep, &told);
    spent = now() - from;
    note_change(soft ? CHANGE_SOFT : CHANGE, spent, status);
    want(ss_last_row(&slots, &row));
}

static void run_ahead(void)
{
    uint32_t step, count, passed, change_of;
    ss_key ran = {SS_NONE, 0, 0, 0};
    ss_job job;
    for (step = 0; step < STEPS; step++) {
        /* every fourth hundred of steps is without arrivals */
        if (step / 100 % 4 < 3) arrivals(&ran);
        want(ss_job_count(&slots, &count));
        if (count > 0) COUNT(JOB, ss_get_job(&slots, below(count), &job));
        change_of = step / 40;
        if (step % 40 == 39) carry(change_of % 3, change_of / 3 % 2 == 1);
        change_of = step / 220;
        if (step % 220 == 219) change(change_of % 3, change_of / 3 % 2 == 1);
        COUNT(AHEAD, ss_ahead(&slots, 64, &ran, &count));
        COUNT(PASS, ss_pass(&slots, 8, &passed));
    }
}

int main(void)
{
    int call;
    start_counter();
    COUNT(OPEN, ss_open(&slots, plan_table, table_bytes(), &told));
    want(plan_read(&plan, plan_table) ? SS_OK : SS_BAD_TABLE);
    run();
    run_ahead();
    put_text("# granted ");
    put_number(granted);
    put_text(" refused ");
    put_number(refused);
    put_text("\n");
    for (call = 0; call < CALLS; call++) {
        put_text(counted[call].name);
        put_text(": ");
        put_number(counted[call].count);
        put_text(" ");
        put_number(counted[call].count > 0 ? counted[call].sum / counted[call].count : 0);
        put_text(" ");
        put_number(counted[call].most);
        put_text("\n");
    }
    board_off();
}
