/* The port of port.h. */
#include "port.h"
#include "board.h"

enum { BASE = 11, STACK = 20 }; /* the places of x30 and sp */

extern unsigned char soft_stack_top[]; /* virt.ld */

void port_prepare(struct port_context *context, void (*base)(void))
{
    context->at.registers[BASE] = (uint64_t)(uintptr_t)base;
    context->at.registers[STACK] = (uint64_t)(uintptr_t)soft_stack_top;
}

void port_discard(struct port_context *context)
{
    (void)context;
}

void port_switch(struct port_context *from, struct port_context *to)
{
    if (port_mark(&from->at) == 0) port_leave(&to->at);
}

void port_open(void)
{
    __asm__ volatile("msr daifclr, #2\n isb" ::: "memory");
}

void port_close(void)
{
    __asm__ volatile("msr daifset, #2" ::: "memory");
}

void port_idle(void)
{
    __asm__ volatile("wfi" ::: "memory");
}

/* An interrupt ends wfi also while it is closed. It is handled by a call, and one at a time: a slot
 * that is over at once after this one finds the job begun that has it. */
void port_wait(void)
{
    __asm__ volatile("wfi" ::: "memory");
    board_interrupt();
}
