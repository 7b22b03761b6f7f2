@ Books a tipped load in the cab unit of a quarry truck.
@
@ The two axle readings are weighed together, the truck's empty weight is taken off, and what is left goes into the
@ day's total. Weights are tonnes. The data memory starts at 0:
@
@    0  the day's total        8  the last load, for the display      16  front axle
@    4  the number of loads   12  the total that met the target       20  rear axle
@
@ R12 stays 0: it is the base of these cells, and the zero that constants are added to.
@ Assembled by GNU as (arm-none-eabi-as -march=armv7-a).
        .syntax unified
        .arm
        .text
start:
        b       book

@ R0 becomes the sum of the readings. The caller leaves in R14 where to go on.
weigh:
        and     r0, r0, #0
        add     r2, r12, #16
next:
        ldr     r1, [r2]
        add     r0, r0, r1
        add     r2, r2, #4
        cmp     r2, #24
        bne     next
        add     r15, r14, #0

@ The readings are put in place first, since the memory starts out all 0.
book:
        add     r1, r12, #21
        str     r1, [r12, #16]
        add     r1, r12, #34
        str     r1, [r12, #20]
        add     r14, r15, #0
        b       weigh
        subs    r0, r0, #25
        addmi   r0, r12, #0
        beq     show
        ldr     r3, [r12]
        add     r3, r3, r0
        str     r3, [r12]
        ldr     r4, [r12, #4]
        add     r4, r4, #1
        str     r4, [r12, #4]
        cmp     r3, #200
        bcc     show
        str     r3, [r12, #12]
show:
        str     r0, [r12, #8]
