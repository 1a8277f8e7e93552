@ Tones of timer 4: on and off, pitches, duties, other clocks, and the timer's
@ interrupt with them.
    .include "common.inc"
    program sound

    .set SOUND_BASE, TIMER_BASE + SOUND_TIMER * TIMER_STEP

sound_start:
    bx lr

sound_round:
    push {r4, lr}
    ldr r4, =SOUND_BASE
    choose 9, 1f, 1f, 2f, 3f, 4f, 5f, 6f, 7f, 7f
1:  draw r0                             @ a pitch and a duty
    orr r1, r0, #0x8000
    str r1, [r4, #RELOAD_AT]
    rsb r1, r1, #0
    mov r1, r1, lsl #16
    mov r1, r1, lsr #17
    rsb r1, r1, #0
    str r1, [r4, #COMPARE_AT]
    b 8f
2:  draw r1                             @ any pitch, or some of it
    add r0, r4, #RELOAD_AT
    bl store_any
    b 8f
3:  draw r1                             @ any duty
    add r0, r4, #COMPARE_AT
    bl store_any
    b 8f
4:  mov r0, #TIMER_RUNS                 @ on, perhaps with the interrupt
    and r1, r11, #TIMER_IRQ_ON
    orr r0, r0, r1
    and r1, r11, #1
    orr r0, r0, r1
    str r0, [r4, #CONTROL_AT]
    b 8f
5:  mov r0, #0                          @ off
    str r0, [r4, #CONTROL_AT]
    b 8f
6:  draw r0                             @ another clock of the system, mostly a fast one
    and r1, r0, #31
    tst r0, #0xE0
    andne r1, r0, #7
    mov r0, r0, lsr r1
    store r0, SYSCLK_VAR
    b 8f
7:  bl wait_sometimes
8:  mov r0, r4
    bl load_any
    ldr r0, [r4, #RELOAD_AT]
    mix r0
    ldr r0, [r4, #COMPARE_AT]
    mix r0
    ldr r0, [r4, #COUNTER_AT]
    mix r0
    pop {r4, pc}
    .ltorg

    last
