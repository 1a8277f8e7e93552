@ All six timers: reloads, both rates, interrupts, counters, and their other words.
    .include "common.inc"
    program timers

timers_start:
    bx lr

@ One action on one timer, and then a look at it.
timers_round:
    push {r4, lr}
    below r4, TIMER_COUNT
    ldr r0, =TIMER_BASE
    add r4, r0, r4, lsl #5
    choose 7, 1f, 1f, 2f, 2f, 3f, 4f, 5f
1:  draw r0                             @ a reload, mostly of a short period
    tst r0, #0x70000
    orrne r0, r0, #0xF800
    str r0, [r4, #RELOAD_AT]
    b 6f
2:  draw r0                             @ mostly it runs, at one of two rates
    tst r0, #0x700000
    orrne r0, r0, #TIMER_RUNS
    tst r0, #0x300000
    orrne r0, r0, #TIMER_IRQ_ON
    str r0, [r4, #CONTROL_AT]
    b 6f
3:  draw r1                             @ the control, or some of it
    mov r0, r4
    bl store_any
    b 6f
4:  draw r1                             @ any of its words
    and r0, r11, #0x1C
    add r0, r4, r0
    bl store_any
    b 6f
5:  bl wait_sometimes
6:  mov r0, r4
    bl load_any
    add r0, r4, #COUNTER_AT
    bl load_any
    ldr r0, [r4, #COUNTER_AT]
    mix r0
    pop {r4, pc}
    .ltorg

    last
