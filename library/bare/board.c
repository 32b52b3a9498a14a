/* The board of board.h. */
#include "board.h"
#include "../unit/dispatch.h"

/* The interrupts of the core's timers: the virtual one gives the slots, the other one is the device
 * of this example. */
enum { SLOT_INTERRUPT = 27, DEVICE_INTERRUPT = 30, NO_INTERRUPT = 1020 };

static volatile uint32_t *const distributor = (volatile uint32_t *)0x08000000;
static volatile uint32_t *const core = (volatile uint32_t *)0x08010000;
static volatile uint32_t *const serial = (volatile uint32_t *)0x09000000;

enum { ENABLE = 0x100 / 4 };                                      /* of the distributor */
enum { CONTROL = 0, PRIORITY = 1, ACKNOWLEDGE = 3, FINISHED = 4 }; /* of the core's part */
enum { DATA = 0, FLAGS = 0x18 / 4, IS_FULL = 0x20 };               /* of the serial line */

static uint64_t next, length; /* the end of the slot, and its length, in counts */
static uint64_t device;       /* when the device comes, in counts of its own timer */
uint32_t board_late;

static uint64_t counts_of(uint32_t microseconds)
{
    uint64_t frequency;
    __asm__("mrs %0, cntfrq_el0" : "=r"(frequency));
    return frequency * microseconds / 1000000;
}

static uint64_t now(void)
{
    uint64_t count;
    __asm__ volatile("isb\n mrs %0, cntvct_el0" : "=r"(count));
    return count;
}

void board_start(uint32_t slot)
{
    distributor[0] = 1;
    distributor[ENABLE] = 1u << SLOT_INTERRUPT | 1u << DEVICE_INTERRUPT;
    core[PRIORITY] = 0xff;
    core[CONTROL] = 1;
    length = counts_of(slot);
    next = now() + length;
    __asm__ volatile("mrs %0, cntpct_el0" : "=r"(device));
    __asm__ volatile("msr cntv_cval_el0, %0" ::"r"(next));
    __asm__ volatile("msr cntv_ctl_el0, %0" ::"r"(UINT64_C(1)));
}

void board_device_in(uint32_t microseconds)
{
    device += counts_of(microseconds);
    __asm__ volatile("msr cntp_cval_el0, %0" ::"r"(device));
    __asm__ volatile("msr cntp_ctl_el0, %0\n isb" ::"r"(UINT64_C(1)));
}

/* The time of the next slot's end does not drift: it is counted from the last one, and not from
 * now. The controller is told that the interrupt is over before jobs run, which are called
 * inside. */
static void slot_interrupt(uint32_t number)
{
    if (now() >= next + length) board_late++;
    next += length;
    __asm__ volatile("msr cntv_cval_el0, %0\n isb" ::"r"(next));
    core[FINISHED] = number;
    dispatch_slot_over();
}

static void device_interrupt(uint32_t number)
{
    __asm__ volatile("msr cntp_ctl_el0, %0\n isb" ::"r"(UINT64_C(0)));
    board_device();
    core[FINISHED] = number;
}

void board_interrupt(void)
{
    uint32_t number = core[ACKNOWLEDGE] & 0x3ff;
    if (number == SLOT_INTERRUPT) slot_interrupt(number);
    else if (number == DEVICE_INTERRUPT) device_interrupt(number);
    else if (number < NO_INTERRUPT) core[FINISHED] = number;
}

bool board_put(const char *bytes, size_t count)
{
    size_t at;
    for (at = 0; at < count; at++) {
        while ((serial[FLAGS] & IS_FULL) != 0) {}
        serial[DATA] = (unsigned char)bytes[at];
    }
    return true;
}

/* By the call of the firmware (PSCI) that takes the power away. */
void board_off(void)
{
    register uint64_t call __asm__("x0") = 0x84000008;
    for (;;) __asm__ volatile("hvc #0" : "+r"(call)::"memory");
}

static void put_hexadecimal(uint64_t number)
{
    static const char digits[] = "0123456789abcdef";
    int shift;
    for (shift = 60; shift >= 0; shift -= 4) board_put(&digits[number >> shift & 15], 1);
    board_put("\n", 1);
}

void board_fault(uint64_t cause, uint64_t place);
void board_fault(uint64_t cause, uint64_t place)
{
    board_put("fault\n", 6);
    put_hexadecimal(cause);
    put_hexadecimal(place);
    board_off();
}
