@ Register words that are only stored: bytes, halves, words, several at once and
@ swaps, read back in all ways; and the second serial port and the clock's switch.
    .include "common.inc"
    program words

words_start:
    bx lr

words_round:
    push {r4-r8, lr}
    draw r0                             @ one of 224 words, for 256 have a place
    adr r1, words_bases
    and r2, r0, #0x1C
    ldr r4, [r1, r2]
    and r0, r0, #0x1F00
    add r4, r4, r0, lsr #6
    choose 9, 1f, 1f, 1f, 2f, 3f, 4f, 5f, 6f, 7f
1:  mov r0, r4
    draw r1
    bl store_any
    b 8f
2:  mov r0, #0                          @ a place is given back
    str r0, [r4]
    b 8f
3:  draw r0                             @ four words at once
    mov r1, r11, ror #9
    mov r2, r11, lsr #1
    mov r3, r11, lsl #3
    bic r4, r4, #0xC
    stmia r4, {r0-r3}
    ldmia r4, {r5-r8}
    mix r5
    mix r6
    mix r7
    mix r8
    b 8f
4:  draw r0                             @ swaps
    swp r1, r0, [r4]
    mix r1
    swpb r1, r0, [r4]
    mix r1
    b 8f
5:  draw r0                             @ two words at once
    mov r1, r11, ror #3
    bic r4, r4, #4
    strd r0, [r4]
    ldrd r2, [r4]
    mix r2
    mix r3
    b 8f
6:  draw r1                             @ the second serial port
    ldr r0, =SPI2_SEND
    bl store_any
    load r0, SPI2_STATUS
    load r0, SPI2_ANSWER
    load r0, SPI2_STATUS
    b 8f
7:  draw r1                             @ the clock's switch
    ldr r0, =CLOCK_SWITCH
    bl store_any
    load r0, CLOCK_STATUS
    load r0, INTC_PENDING_FIQ
    bl wait_sometimes
8:  mov r0, r4
    bl load_any
    mov r0, r4
    bl load_any
    pop {r4-r8, pc}
words_bases:
    .word 0xC0010000, 0xC0060000, 0xC0FFFF80, 0xD0300000
    .word 0xD0FFFF80, 0xFF000000, 0xC0010000, 0xFFFFEF80
    .ltorg

    last
