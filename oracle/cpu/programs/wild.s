@ Any word that a device knows, read and written by any part with any value; left
@ out are the power, and what is sent to the flash, which could erase the program.
    .include "common.inc"
    program wild

wild_start:
    bx lr

wild_round:
    push {r4-r7, lr}
    draw r0
    tst r0, #0x80000000
    and r1, r0, #0x7C
    adr r2, wild_words
    ldreq r4, [r2, r1]
    andne r1, r0, #0xFC                 @ a timer's, or one of the words behind them
    ldrne r2, =TIMER_BASE
    addne r4, r1, r2
    choose 8, 1f, 1f, 1f, 2f, 2f, 3f, 4f, 5f
1:  mov r0, r4
    draw r1
    bl store_any
    b 6f
2:  mov r0, r4
    bl load_any
    b 6f
3:  draw r0                             @ read and written at once
    swp r1, r0, [r4]
    mix r1
    b 6f
4:  draw r0                             @ a byte likewise
    and r1, r0, #3
    add r4, r4, r1
    swpb r1, r0, [r4]
    mix r1
    b 6f
5:  ldr r12, =TIMER_BASE                @ several words of a timer at once
    and r0, r11, #0xC0
    cmp r0, #0xC0
    moveq r0, #SOUND_TIMER * TIMER_STEP
    add r12, r12, r0
    ldmia r12, {r0-r3}
    mix r0
    mix r1
    mix r2
    mix r3
    draw r3
    mov r2, r3, ror #11
    orr r0, r3, #TIMER_RUNS
    stmia r12, {r0-r3}
    b 7f
6:  below r0, 300                       @ a wait, with what would keep it from ending
    cmp r0, #0                          @ put right
    bne 7f
    store r0, INTC_MASK
    store r0, INTC_DISABLE
    mov r0, #VSYNC
    store r0, LCD_ENABLE
    bl wait
7:  pop {r4-r7, pc}
wild_words:
    .word RTC_SECONDS, RTC_MINUTES, RTC_HOURS, RTC_IRQ_STATUS, RTC_IRQ_ENABLE, SPI2_SEND
    .word SPI2_STATUS, SPI2_ANSWER, RTC_ADDRESS, RTC_DATA, RTC_COMMAND, RTC_READY, RTC_OUT
    .word ADC_CONTROL, ADC_RESULT, SPIFC_SELECT, SPIFC_STATUS, SPIFC_ANSWER, CLOCK_SWITCH
    .word CLOCK_STATUS, INTC_PENDING, INTC_PENDING_FIQ, INTC_MASK, INTC_DISABLE, LCD_CONTROL
    .word LCD_DATA, LCD_ENABLE, LCD_STATUS, LCD_DMA, KEY_LINES, SYSCLK_VAR, GPIO_BASE
    .ltorg

    last
