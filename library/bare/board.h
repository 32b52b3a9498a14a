/* qemu's machine `virt` with a GICv2: the interrupt controller, the two timers of the core, and the
 * serial line. For another board this file and board.c are written anew. */
#ifndef BOARD_H
#define BOARD_H

#include <stdbool.h>
#include <stddef.h>
#include <stdint.h>

/* Starts the slots, of this length in microseconds: at the end of each dispatch_slot_over is
 * called. */
void board_start(uint32_t slot);

/* Has board_device called once, this number of microseconds after the time for which it was asked
 * before, at first after board_start: a device's interrupt, whose times do not drift. */
void board_device_in(uint32_t microseconds);
void board_device(void); /* the application's */

/* Handles the interrupt that has come, if one has. Interrupts are closed. */
void board_interrupt(void);

/* Slots whose end was looked at more than a slot late. */
extern uint32_t board_late;

/* Puts bytes on the serial line, and waits until it has taken them. */
bool board_put(const char *bytes, size_t length);

/* Ends the machine. */
void board_off(void) __attribute__((noreturn));

#endif
