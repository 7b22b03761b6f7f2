@ Every form of instruction in the subset under every condition, and some words outside the subset.
@ Assembled by GNU as (arm-none-eabi-as -march=armv7-a); 140 words, so the image has two blocks.
        .syntax unified
        .arm
        .text
start:
        .irp cond, eq, ne, cs, cc, mi, pl, vs, vc, hi, ls, ge, lt, gt, le, al
        add\cond   r2, r1, r1
        subs\cond  r3, r4, #5
        and\cond   r15, r14, #255
        orrs\cond  r5, r6, r15
        cmp\cond   r7, r8
        ldr\cond   r9, [r10, #4095]
        str\cond   r15, [r11]
        b\cond     start
        .endr
        adds    r0, r0, #1
        sub     r12, r13, r14
        ands    r1, r2, r3
        orr     r15, r0, r0
        cmp     r0, #255
        ldr     r15, [r15, #8]
        str     r0, [r0, #4]
        b       finish
        b       .
@ From here on, words outside the subset.
        mov     r0, r1
        ldrb    r1, [r0]
        ldr     r1, [r0, #-4]
        ldr     r1, [r0, r2]
        add     r1, r2, r3, lsl #1
        add     r1, r2, #0x100
        rsb     r1, r2, #0
        bl      start
        svc     #0
        .word   0xF0000000
finish:
        add     r15, r1, #0
