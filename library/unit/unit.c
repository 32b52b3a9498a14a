/* The slot's start of unit.h. */
#include "unit.h"
#include "watch.h"

struct unit unit;

/* Requests and soft work that were taken and have not started; a row of 0 is a free place. Each
 * kind has its own places, so that soft work which waits long keeps no request out. */
static struct pending {
    uint64_t due;
    uint32_t row, slots, tag;
} requests[UNIT_PENDING], soft_work[UNIT_PENDING];

/* Of each sporadic task the job that came last: an earlier one has ended, since it was due before
 * the next could come. */
static struct {
    uint64_t due;
    uint32_t tag;
} alarms[PLAN_ALARMS];

static void want(const char *what, uint32_t status)
{
    if (status != SS_OK) unit_fault(what, status);
}

uint32_t unit_next_row(void)
{
    return unit_has_rows() ? ++unit.row : 0;
}

bool unit_has_rows(void)
{
    return unit.row < UINT32_MAX - 1;
}

bool unit_has_asked(const char *what, uint32_t status)
{
    if (status == SS_BAD_NUMBER) unit.row--;
    else if (status != SS_BAD_ROW || unit_has_rows()) want(what, status);
    return status == SS_OK;
}

static struct pending *pending_of(struct pending *all, uint64_t row)
{
    unsigned place = 0;
    while (place < UNIT_PENDING && all[place].row != row) place++;
    return place < UNIT_PENDING ? &all[place] : NULL;
}

uint32_t unit_open(const uint8_t *table, size_t bytes, enum record_level level, record_sink *sink,
                   ss_told *fault)
{
    uint32_t status = ss_open(&unit.slots, table, bytes, fault);
    unsigned place;
    if (status == SS_OK && !plan_read(&unit.plan, table)) {
        want("close", ss_close(&unit.slots));
        status = SS_BAD_TABLE;
    }
    for (place = 0; place < UNIT_PENDING; place++) requests[place].row = soft_work[place].row = 0;
    unit.now = 0;
    unit.row = 0;
    unit.record.slots = &unit.slots;
    unit.record.level = level;
    unit.record.sink = sink;
    unit.record.now = 0;
    if (status == SS_OK) record_start(&unit.record);
    return status;
}

/* The job has ended before its slots did: they are free for others. The last row of all is kept for
 * the job that ended before the other rows were used up. */
static void end_early(const struct frame *frame)
{
    uint32_t row = ++unit.row;
    ss_told told;
    want("done", ss_done(&unit.slots, row, &frame->key, &told));
    record_done(&unit.record, row, &frame->key, &told);
}

/* What became of the job that had the last slot. */
static void settle(struct frame *frame)
{
    if (frame->ended && frame->had < frame->slots) end_early(frame);
    if (!frame->ended && frame->had == frame->slots) watch_rest(frame);
}

/* Soft work: its row where it was asked for, and else 0. */
static uint32_t ask_soft(const struct arrival *arrival, ss_told *told)
{
    struct pending *place = pending_of(soft_work, 0);
    uint32_t row;
    if (place == NULL) return 0;
    row = unit_next_row();
    if (!unit_has_asked("soft", ss_soft(&unit.slots, row, arrival->number, told))) return 0;
    record_soft(&unit.record, row, arrival->number, told);
    if (told->answer == SS_TAKEN) *place = (struct pending){0, row, arrival->number, arrival->tag};
    return row;
}

static uint32_t ask_firm(const struct arrival *arrival, ss_told *told)
{
    struct pending *place = pending_of(requests, 0);
    uint32_t work = arrival->number, within = arrival->within, row;
    if (place == NULL) return 0;
    row = unit_next_row();
    if (!unit_has_asked("firm", ss_firm(&unit.slots, row, work, within, told))) return 0;
    record_firm(&unit.record, row, work, within, told);
    if (told->answer == SS_ACCEPTED) {
        *place = (struct pending){unit.now + within, row, work, arrival->tag};
    }
    return row;
}

static uint32_t sound_alarm(const struct arrival *arrival, ss_told *told)
{
    uint32_t row = unit_next_row();
    if (!unit_has_asked("sporadic", ss_sporadic(&unit.slots, row, arrival->number, told))) return 0;
    record_sporadic(&unit.record, row, arrival->number, told);
    if (told->answer == SS_TAKEN) {
        alarms[arrival->number].due = told->first;
        alarms[arrival->number].tag = arrival->tag;
    }
    return row;
}

static uint32_t take_back(const struct arrival *arrival, ss_told *told)
{
    const ss_key key = {SS_FIRM, 0, 0, arrival->number};
    uint32_t row = unit_next_row();
    struct pending *place = pending_of(requests, arrival->number);
    struct frame *frame = dispatch_find(&key);
    if (!unit_has_asked("withdraw", ss_withdraw(&unit.slots, row, arrival->number, told))) return 0;
    record_withdraw(&unit.record, row, arrival->number, told);
    if (told->answer == SS_FREED && place != NULL) place->row = 0;
    if (told->answer == SS_FREED && frame != NULL) frame->dropped = true;
    return row;
}

static void answer(const struct arrival *arrival)
{
    ss_told told = {SS_NO_ROOM, 0, 0, 0};
    uint32_t row = 0;
    switch (arrival->kind) {
    case ARRIVAL_SOFT: row = ask_soft(arrival, &told); break;
    case ARRIVAL_FIRM: row = ask_firm(arrival, &told); break;
    case ARRIVAL_SPORADIC: row = sound_alarm(arrival, &told); break;
    case ARRIVAL_WITHDRAW: row = take_back(arrival, &told); break;
    }
    unit_told(arrival, row, &told);
}

/* The job of a key that starts now. */
static struct frame frame_of(const ss_key *key)
{
    struct frame frame = {0};
    frame.key = *key;
    if (key->kind == SS_OFFLINE) {
        frame.slots = plan_task_of(&unit.plan, key)->slots;
        frame.due = plan_due(&unit.plan, key);
    } else if (key->kind == SS_SPORADIC) {
        frame.slots = unit.plan.alarm[key->group].slots;
        frame.due = alarms[key->group].due;
        frame.tag = alarms[key->group].tag;
    } else {
        bool is_soft = key->kind == SS_SOFT;
        struct pending *place = pending_of(is_soft ? soft_work : requests, key->number);
        if (place == NULL) unit_fault("pending", SS_BAD_ROW);
        frame.slots = place->slots;
        frame.due = place->due;
        frame.tag = place->tag;
        place->row = 0;
    }
    frame.more = unit_more(&frame);
    return frame;
}

/* Asks the executive who has the next slot. */
static void next_slot(void)
{
    ss_key key;
    struct frame *frame, starts;
    want("slot", ss_slot(&unit.slots, &key));
    record_slot(&unit.record, &key);
    unit.now++;
    frame = key.kind == SS_NONE ? NULL : dispatch_find(&key);
    if (key.kind == SS_NONE) {
        dispatch_idle();
    } else if (frame != NULL) {
        dispatch_give(frame);
    } else {
        starts = frame_of(&key);
        dispatch_begin(&starts);
    }
}

void unit_tick(void)
{
    struct frame *had = dispatch_had();
    struct arrival arrival;
    uint32_t count = inbox_count(&unit.inbox);
    if (unit.now == unit.until && unit.until > 0) {
        record_end(&unit.record);
        dispatch_stop();
        return;
    }
    if (had != NULL) settle(had);
    for (; count > 0 && inbox_take(&unit.inbox, &arrival); count--) answer(&arrival);
    next_slot();
}
