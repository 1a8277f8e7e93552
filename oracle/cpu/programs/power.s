@ Power and its neighbours: after as many rounds as the seed says the program
@ switches itself off, and the run is over.
    .include "common.inc"
    program power

    .set ROUNDS_AT, KEPT_AT + 16

power_start:
    draw r0
    mov r0, r0, lsr #23
    add r0, r0, #0x40
    str r0, [r9, #ROUNDS_AT]
    mov r0, #1
    store r0, POWER_REG
    bx lr

power_round:
    push {lr}
    draw r1
    orr r1, r1, #1
    ldr r0, =POWER_REG
    tst r11, #0x30
    streq r1, [r0]
    load r0, POWER_REG
    draw r1
    ldr r0, =CLOCK_SWITCH
    bl store_any
    load r0, CLOCK_STATUS
    draw r1
    ldr r0, =SPI2_SEND
    bl store_any
    ldr r0, =SPI2_STATUS
    bl load_any
    load r0, SPI2_ANSWER
    draw r1
    ldr r0, =SPI2_STATUS
    bl store_any
    ldr r0, =SPIFC_STATUS
    draw r1
    bl store_any
    load r0, SPIFC_STATUS
    bl wait_sometimes
    ldr r0, [r9, #ROUNDS_AT]
    subs r0, r0, #1
    str r0, [r9, #ROUNDS_AT]
    bne 1f
    store r0, POWER_REG
1:  pop {pc}
    .ltorg

    last
