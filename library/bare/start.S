/* Start-up and what C cannot say, for one core of aarch64 at EL1: reset, vectors, the interrupt's
 * entry, and the two calls that save and restore a place on a stack. */

    .macro pairs at, operation      /* x19 to x30 and d8 to d15, 160 bytes at \at */
    \operation x19, x20, [\at, #0]
    \operation x21, x22, [\at, #16]
    \operation x23, x24, [\at, #32]
    \operation x25, x26, [\at, #48]
    \operation x27, x28, [\at, #64]
    \operation x29, x30, [\at, #80]
    \operation d8, d9, [\at, #96]
    \operation d10, d11, [\at, #112]
    \operation d12, d13, [\at, #128]
    \operation d14, d15, [\at, #144]
    .endm

    .section .text.reset, "ax"
    .global reset
reset:
    mov     x0, #(3 << 20)              /* floating point and vectors may be used */
    msr     cpacr_el1, x0
    adr     x0, vectors
    msr     vbar_el1, x0
    isb
    ldr     x0, =guaranteed_stack_top
    mov     sp, x0
    ldr     x0, =bss_start
    ldr     x1, =bss_end
0:  cmp     x0, x1
    b.hs    1f
    stp     xzr, xzr, [x0], #16
    b       0b
1:  bl      map_memory
    bl      main
    b       halt

/* Two blocks of 1 GiB, mapped to where they are: devices below, RAM above. Without a map all memory
 * is taken for a device, of which no number may be read that is not aligned. */
map_memory:
    adr     x0, table
    mov     x1, #0xff00                 /* kind 0: a device; kind 1: memory that is cached */
    msr     mair_el1, x1
    ldr     x1, =0x200803519            /* 39 bits of address, 4 KiB, cached, 40 bits of RAM */
    msr     tcr_el1, x1
    msr     ttbr0_el1, x0
    dsb     sy
    tlbi    vmalle1
    dsb     sy
    isb
    mrs     x1, sctlr_el1
    ldr     x2, =0x1005                 /* map, data cache, instruction cache */
    orr     x1, x1, x2
    msr     sctlr_el1, x1
    isb
    ret

    .balign 4096
table:
    .quad   0x0060000000000401          /* 0: device, not executed */
    .quad   0x0000000040000705          /* 1 GiB: memory, shared */
    .fill   510, 8, 0

    .text
    .balign 2048
vectors:
    .macro vector to
    .balign 128
    b       \to
    .endm
    vector  halt                        /* with the stack of EL0: not used */
    vector  halt
    vector  halt
    vector  halt
    vector  fault                       /* with the stack of EL1, where all of this runs */
    vector  interrupt
    vector  halt
    vector  fault
    .rept   8
    vector  halt                        /* from EL0 */
    .endr

/* The interrupt's entry, on the stack of what was interrupted. It saves each register that a call
 * in C may change, and so all vector registers: the library uses them. The others are saved by what
 * is called. ELR and SPSR too, since jobs run inside, with interrupts open. */
    .equ    FRAME, 10 * 16 + 2 * 16 + 16 * 32
interrupt:
    sub     sp, sp, #FRAME
    stp     x0, x1, [sp, #0]
    stp     x2, x3, [sp, #16]
    stp     x4, x5, [sp, #32]
    stp     x6, x7, [sp, #48]
    stp     x8, x9, [sp, #64]
    stp     x10, x11, [sp, #80]
    stp     x12, x13, [sp, #96]
    stp     x14, x15, [sp, #112]
    stp     x16, x17, [sp, #128]
    stp     x18, x30, [sp, #144]
    mrs     x0, elr_el1
    mrs     x1, spsr_el1
    mrs     x2, fpsr
    mrs     x3, fpcr
    stp     x0, x1, [sp, #160]
    stp     x2, x3, [sp, #176]
    add     x0, sp, #192
    stp     q0, q1, [x0, #0]
    stp     q2, q3, [x0, #32]
    stp     q4, q5, [x0, #64]
    stp     q6, q7, [x0, #96]
    stp     q8, q9, [x0, #128]
    stp     q10, q11, [x0, #160]
    stp     q12, q13, [x0, #192]
    stp     q14, q15, [x0, #224]
    stp     q16, q17, [x0, #256]
    stp     q18, q19, [x0, #288]
    stp     q20, q21, [x0, #320]
    stp     q22, q23, [x0, #352]
    stp     q24, q25, [x0, #384]
    stp     q26, q27, [x0, #416]
    stp     q28, q29, [x0, #448]
    stp     q30, q31, [x0, #480]
    bl      board_interrupt
    add     x0, sp, #192
    ldp     q0, q1, [x0, #0]
    ldp     q2, q3, [x0, #32]
    ldp     q4, q5, [x0, #64]
    ldp     q6, q7, [x0, #96]
    ldp     q8, q9, [x0, #128]
    ldp     q10, q11, [x0, #160]
    ldp     q12, q13, [x0, #192]
    ldp     q14, q15, [x0, #224]
    ldp     q16, q17, [x0, #256]
    ldp     q18, q19, [x0, #288]
    ldp     q20, q21, [x0, #320]
    ldp     q22, q23, [x0, #352]
    ldp     q24, q25, [x0, #384]
    ldp     q26, q27, [x0, #416]
    ldp     q28, q29, [x0, #448]
    ldp     q30, q31, [x0, #480]
    ldp     x0, x1, [sp, #160]
    ldp     x2, x3, [sp, #176]
    msr     elr_el1, x0
    msr     spsr_el1, x1
    msr     fpsr, x2
    msr     fpcr, x3
    ldp     x2, x3, [sp, #16]
    ldp     x4, x5, [sp, #32]
    ldp     x6, x7, [sp, #48]
    ldp     x8, x9, [sp, #64]
    ldp     x10, x11, [sp, #80]
    ldp     x12, x13, [sp, #96]
    ldp     x14, x15, [sp, #112]
    ldp     x16, x17, [sp, #128]
    ldp     x18, x30, [sp, #144]
    ldp     x0, x1, [sp, #0]
    add     sp, sp, #FRAME
    eret

fault:
    mrs     x0, esr_el1
    mrs     x1, elr_el1
    bl      board_fault
halt:
    wfi
    b       halt

/* int port_mark(struct port_mark *): keeps this place of the stack, and returns 0. */
    .global port_mark
port_mark:
    pairs   x0, stp
    mov     x1, sp
    str     x1, [x0, #160]
    mov     w0, #0
    ret

/* void port_leave(struct port_mark *): goes on at that place, where port_mark returns 1. */
    .global port_leave
port_leave:
    pairs   x0, ldp
    ldr     x1, [x0, #160]
    mov     sp, x1
    mov     w0, #1
    ret
