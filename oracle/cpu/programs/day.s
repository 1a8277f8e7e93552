@ The time of day and its tick: fields read and set, status and enable by parts.
    .include "common.inc"
    program day

day_start:
    mov r0, #RTC_TICK_BIT
    store r0, RTC_IRQ_ENABLE
    bx lr

day_round:
    push {r4, lr}
    below r4, 3
    ldr r0, =RTC_SECONDS
    add r4, r0, r4, lsl #2
    choose 8, 1f, 1f, 2f, 3f, 4f, 5f, 5f, 6f
1:  draw r1                             @ a field, in its range or not far beyond
    and r1, r1, #0x3F
    str r1, [r4]
    b 6f
2:  draw r1                             @ a field, any number and by any part
    mov r0, r4
    bl store_any
    b 6f
3:  draw r1                             @ the status
    ldr r0, =RTC_IRQ_STATUS
    bl store_any
    b 6f
4:  draw r1                             @ the enable, mostly with the tick on
    and r1, r1, #0x1F
    tst r11, #0x3000
    orrne r1, r1, #RTC_TICK_BIT
    store r1, RTC_IRQ_ENABLE
    b 6f
5:  bl wait
6:  mov r0, r4
    bl load_any
    load r0, RTC_SECONDS
    load r0, RTC_MINUTES
    load r0, RTC_HOURS
    ldr r0, =RTC_IRQ_STATUS
    bl load_any
    load r0, RTC_IRQ_ENABLE
    pop {r4, pc}
    .ltorg

    last
