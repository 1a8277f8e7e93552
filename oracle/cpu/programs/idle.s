@ A main loop that does nothing but call and look, while handlers do all the
@ work: a row of pixels or a picture, the next tone, a byte of the flash, the next
@ conversion.
    .include "common.inc"
    program idle

    .set IDLE_TONES, TIMER_BASE + SOUND_TIMER * TIMER_STEP

idle_start:
    adr r0, idle_work
    str r0, [r9, #HOOK_AT]
    mov r0, #RTC_TICK_BIT
    store r0, RTC_IRQ_ENABLE
    ldr r1, =TIMER_BASE
    mov r2, #TIMER_COUNT
    mov r0, #TIMER_RUNS
    orr r0, r0, #TIMER_IRQ_ON
    orr r0, r0, #1
1:  draw r3
    mov r3, r3, lsr #17
    str r3, [r1, #RELOAD_AT]
    str r0, [r1], #TIMER_STEP
    subs r2, r2, #1
    bne 1b
    bx lr

@ Goes round until there was an interrupt; what it writes on the way is always
@ the same.
idle_round:
    push {r4, lr}
    ldr r4, [r9, #COUNT_AT]
1:  bl idle_looks
    cmp r0, r4
    beq 1b
    mix r0
    pop {r4, pc}

idle_looks:
    push {r4, lr}
    ldr r0, [r9, #COUNT_AT]
    pop {r4, pc}

@ The handler's hook: one of four pieces of work, and a look at the keys.
idle_work:
    push {r4, lr}
    draw r0
    mov r0, r0, lsr #30
    cmp r0, #1
    bhi 3f
    beq 2f
    ldr r0, =WORK_RAM                   @ a picture
    add r0, r0, r11, lsr #14
    store r0, LCD_DMA
    mov r0, #START_DMA
    store r0, LCD_CONTROL
    b 5f
2:  ldr r1, =IDLE_TONES                 @ a tone, and another period of a timer
    str r11, [r1, #COMPARE_AT]
    orr r0, r11, #0x4000
    str r0, [r1, #RELOAD_AT]
    ldr r1, =TIMER_BASE
    and r0, r11, #0xA0
    bic r0, r0, #0x80
    add r1, r1, r0
    orr r0, r11, #0xE000
    str r0, [r1, #RELOAD_AT]
    b 5f
3:  cmp r0, #2
    bne 4f
    mov r0, #FLASH_SELECTED             @ what the flash is called
    store r0, SPIFC_SELECT
    mov r0, #0x9F
    mov r4, #4
31: store r0, SPIFC_SEND
    load r0, SPIFC_ANSWER
    subs r4, r4, #1
    bne 31b
    store r4, SPIFC_SELECT
    b 5f
4:  load r0, ADC_CONTROL                @ a conversion, and the time of day
    bic r0, r0, #ADC_START
    store r0, ADC_CONTROL
    orr r0, r0, #ADC_START
    orr r0, r0, #ADC_IRQ_ON
    store r0, ADC_CONTROL
    load r0, RTC_SECONDS
    load r0, RTC_MINUTES
5:  load r0, KEY_LINES
    pop {r4, pc}
    .ltorg

    last
