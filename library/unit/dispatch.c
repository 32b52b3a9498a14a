/* The dispatcher of dispatch.h.
 *
 * On each stack the code of a job lies between a call of `begin`, which called it, and, where it
 * was interrupted, a call of `serve`, which waits until the job has a slot again. Meanwhile `serve`
 * calls `begin` for the jobs that start above it, and hands over to the other stack. All of this
 * runs with interrupts closed; they are open in jobs, and port_wait handles one. */
#include "dispatch.h"
#include "unit.h"

struct stack {
    struct frame frames[DISPATCH_DEPTH];
    unsigned depth;
    struct port_context context; /* where it left off, while the other one has the processor */
};

static struct stack guaranteed, soft;
static struct stack *here; /* the stack that has the processor */
static bool waiting;       /* for the end of the slot, in port_wait: no job is interrupted */
static bool stopping;

/* Who has the slot: nobody where there is no stack; else the job at this height of it, counted from
 * 1, or, at height 0, one that starts. */
static struct {
    struct stack *stack;
    unsigned height;
    struct frame starts;
} turn;

static void wait_for_slot(void)
{
    waiting = true;
    port_wait();
    waiting = false;
}

static bool has_turn(const struct stack *mine, unsigned height)
{
    return turn.stack == mine && turn.height == height;
}

/* Calls the job that starts. Where it ends before its slot does, the rest of the slot is idle. */
static void begin(struct stack *mine)
{
    struct frame *frame;
    if (mine->depth == DISPATCH_DEPTH) unit_fault("depth", SS_BAD_NUMBER);
    frame = &mine->frames[mine->depth++];
    *frame = turn.starts;
    turn.height = mine->depth;
    if (port_mark(&frame->mark) == 0) {
        port_open();
        unit_run(frame);
        while (!unit_has_rows() && frame->had < frame->slots) port_idle();
        port_close();
        frame->ended = true;
        while (has_turn(mine, mine->depth)) wait_for_slot();
    }
    mine->depth--;
}

static void hand_over(struct stack *mine, struct stack *other)
{
    here = other;
    port_switch(&mine->context, &other->context);
    here = mine;
}

/* Whether the base of a stack has nothing left to do. */
static bool is_over(const struct stack *mine)
{
    return stopping && mine == &guaranteed && mine->depth == 0 && soft.depth == 0;
}

/* Gives slots away until the job on top of this stack has one: then that job goes on. */
static void serve(struct stack *mine)
{
    unsigned height = mine->depth;
    struct frame *top = height > 0 ? &mine->frames[height - 1] : NULL;
    while (top == NULL || !has_turn(mine, height)) {
        if (top != NULL && top->dropped) port_leave(&top->mark);
        if (is_over(mine)) return;
        if (turn.stack == NULL && !stopping) wait_for_slot();
        else if (turn.stack == mine) begin(mine);
        else hand_over(mine, mine == &soft ? &guaranteed : &soft);
    }
}

/* The base of the other stack. */
static void serve_soft(void)
{
    for (;;) serve(&soft);
}

void dispatch_run(void)
{
    guaranteed.depth = soft.depth = 0;
    turn.stack = NULL;
    stopping = false;
    here = &guaranteed;
    port_prepare(&soft.context, serve_soft);
    serve(&guaranteed);
    port_discard(&soft.context);
}

void dispatch_slot_over(void)
{
    unit_tick();
    if (!waiting) serve(here);
}

static struct stack *stack_of(const ss_key *key)
{
    return key->kind == SS_SOFT ? &soft : &guaranteed;
}

static bool is_live(const struct frame *frame)
{
    return !frame->ended && !frame->dropped;
}

/* What goes on lies below no job that has not ended: else two stacks do not serve. */
void dispatch_give(struct frame *frame)
{
    struct stack *stack = stack_of(&frame->key);
    unsigned height = stack->depth;
    while (height > 0 && !is_live(&stack->frames[height - 1])) height--;
    if (height == 0 || frame != &stack->frames[height - 1]) unit_fault("nesting", SS_BAD_NUMBER);
    frame->had++;
    turn.stack = stack;
    turn.height = height;
}

void dispatch_begin(const struct frame *frame)
{
    turn.starts = *frame;
    turn.starts.had = 1;
    turn.stack = stack_of(&frame->key);
    turn.height = 0;
}

void dispatch_idle(void)
{
    turn.stack = NULL;
}

void dispatch_stop(void)
{
    unsigned place;
    dispatch_idle();
    stopping = true;
    for (place = 0; place < guaranteed.depth; place++) guaranteed.frames[place].dropped = true;
    for (place = 0; place < soft.depth; place++) soft.frames[place].dropped = true;
}

struct frame *dispatch_had(void)
{
    return turn.stack == NULL ? NULL : &turn.stack->frames[turn.height - 1];
}

struct frame *dispatch_find(const ss_key *key)
{
    struct stack *stack = stack_of(key);
    unsigned height = stack->depth;
    for (; height > 0; height--) {
        struct frame *frame = &stack->frames[height - 1];
        if (is_live(frame) && frame->key.kind == key->kind && frame->key.group == key->group &&
            frame->key.task == key->task && frame->key.number == key->number) {
            return frame;
        }
    }
    return NULL;
}

struct frame *dispatch_under(const struct frame *frame)
{
    struct stack *stack = stack_of(&frame->key);
    unsigned height = (unsigned)(frame - stack->frames);
    while (height > 0 && !is_live(&stack->frames[height - 1])) height--;
    return height > 0 ? &stack->frames[height - 1] : NULL;
}
