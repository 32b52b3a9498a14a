/* The port of port.h. */
#include "port.h"
#include "../dispatch.h"
#include "../unit.h"

static bool is_open;

static void wait_for(sem_t *turn)
{
    while (sem_wait(turn) != 0) {} /* a signal came */
}

static void *start(void *words)
{
    struct port_context *context = words;
    wait_for(&context->turn);
    context->base();
    return NULL;
}

/* The stack that calls this is that of the calling thread: its context gets its semaphore when it
 * first switches. */
static sem_t first;

void port_prepare(struct port_context *context, void (*base)(void))
{
    context->base = base;
    if (sem_init(&first, 0, 0) != 0 || sem_init(&context->turn, 0, 0) != 0 ||
        pthread_create(&context->thread, NULL, start, context) != 0) {
        unit_fault("threads", SS_MEMORY);
    }
}

/* The thread waits in sem_wait, where it may be cancelled. */
void port_discard(struct port_context *context)
{
    pthread_cancel(context->thread);
    pthread_join(context->thread, NULL);
    sem_destroy(&context->turn);
    sem_destroy(&first);
}

/* The context without a base is that of the first stack. */
static sem_t *turn_of(struct port_context *context)
{
    return context->base == NULL ? &first : &context->turn;
}

void port_switch(struct port_context *from, struct port_context *to)
{
    sem_post(turn_of(to));
    wait_for(turn_of(from));
}

void port_open(void)
{
    is_open = true;
}

void port_close(void)
{
    is_open = false;
}

void port_strike(void)
{
    if (!is_open) unit_fault("closed", SS_BAD_NUMBER);
    is_open = false;
    bench_devices();
    dispatch_slot_over();
    is_open = true;
}

void port_idle(void)
{
    port_strike();
}

void port_wait(void)
{
    is_open = true;
    port_strike();
    is_open = false;
}
