/* The watch of watch.h. */
#include "watch.h"
#include "unit.h"

/* A request due with the job under this one would go behind it, and so would have to wait below the
 * one that waits for it: where the two are level, it is due a slot earlier. */
static uint64_t due_of_rest(const struct frame *frame)
{
    const struct frame *under = dispatch_under(frame);
    return under != NULL && under->due <= frame->due ? under->due - 1 : frame->due;
}

static bool is_accepted(struct frame *frame)
{
    uint64_t due = due_of_rest(frame);
    uint32_t within, row;
    ss_told told;
    if (due <= unit.now) return false;
    within = (uint32_t)(due - unit.now);
    row = unit_next_row();
    if (!unit_has_asked("rest", ss_firm(&unit.slots, row, frame->more, within, &told))) {
        return false;
    }
    record_firm(&unit.record, row, frame->more, within, &told);
    if (told.answer != SS_ACCEPTED) return false;
    frame->key = (ss_key){SS_FIRM, 0, 0, row};
    frame->due = due;
    return true;
}

/* One rest at a time: a second one, above it, would have the higher row and so wait for the first,
 * which lies below. */
static bool is_taken(struct frame *frame)
{
    uint32_t row;
    ss_told told;
    if (dispatch_under(frame) != NULL) return false;
    row = unit_next_row();
    if (!unit_has_asked("rest", ss_soft(&unit.slots, row, frame->more, &told))) return false;
    record_soft(&unit.record, row, frame->more, &told);
    if (told.answer != SS_TAKEN) return false;
    frame->key.number = row;
    return true;
}

void watch_rest(struct frame *frame)
{
    bool goes_on = frame->more > 0 &&
                   (frame->key.kind == SS_SOFT ? is_taken(frame) : is_accepted(frame));
    if (goes_on) {
        frame->slots += frame->more;
        frame->more = 0;
    } else {
        frame->dropped = true;
        unit_stopped(frame);
    }
}
