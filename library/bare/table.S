/* The binary table, in the program's own memory: PLAN is the name of its file. */
    .section .rodata
    .balign 16
    .global plan_table, plan_table_end
plan_table:
    .incbin PLAN
plan_table_end:
