/* uint32_t hold(const volatile uint32_t *count, uint32_t last, uint64_t pattern): keeps the pattern
 * in all registers that a call may use, while jobs come and go, until the count is another one.
 * Returns how many registers then hold something else. It shows that an interrupt changes none. */
    .macro fill n
    dup     v\n\().2d, x2
    .endm

    .macro count n                      /* both halves have to be the pattern */
    mov     x3, v\n\().d[0]
    mov     x4, v\n\().d[1]
    cmp     x3, x2
    ccmp    x4, x2, #0, eq
    cinc    w0, w0, ne
    .endm

    .macro each_vector of
    .irp    n, 0, 1, 2, 3, 4, 5, 6, 7, 8, 9, 10, 11, 12, 13, 14, 15
    \of     \n
    .endr
    .irp    n, 16, 17, 18, 19, 20, 21, 22, 23, 24, 25, 26, 27, 28, 29, 30, 31
    \of     \n
    .endr
    .endm

    .text
    .global hold
hold:
    stp     x29, x30, [sp, #-128]!
    stp     d8, d9, [sp, #16]
    stp     d10, d11, [sp, #32]
    stp     d12, d13, [sp, #48]
    stp     d14, d15, [sp, #64]
    stp     x19, x20, [sp, #80]
    stp     x21, x22, [sp, #96]
    each_vector fill
    .irp    n, 3, 4, 5, 6, 7, 8, 9, 10, 11, 12, 13, 14, 15, 16, 17, 18, 19, 20, 21, 22
    mov     x\n, x2
    .endr
0:  ldr     w30, [x0]
    cmp     w30, w1
    b.eq    0b
    mov     w0, #0
    .irp    n, 3, 4, 5, 6, 7, 8, 9, 10, 11, 12, 13, 14, 15, 16, 17, 18, 19, 20, 21, 22
    cmp     x\n, x2
    cinc    w0, w0, ne
    .endr
    each_vector count
    ldp     x21, x22, [sp, #96]
    ldp     x19, x20, [sp, #80]
    ldp     d14, d15, [sp, #64]
    ldp     d12, d13, [sp, #48]
    ldp     d10, d11, [sp, #32]
    ldp     d8, d9, [sp, #16]
    ldp     x29, x30, [sp], #128
    ret
