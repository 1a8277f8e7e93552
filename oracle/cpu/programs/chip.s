@ The RTC chip on its bus: all registers, counts, staging, alarm.
    .include "common.inc"
    program chip

chip_start:
    bx lr

chip_round:
    push {r4, r5, lr}
    choose 8, 1f, 2f, 3f, 4f, 5f, 6f, 6f, 7f
1:  draw r4                             @ any register is written
    draw r0
    bl chip_write
    b 8f
2:  mov r4, #0x10                       @ the staging, and with it the count
    b 31f
3:  mov r4, #0x20                       @ the alarm
31: mov r5, #6
32: draw r0
    bl chip_write
    add r4, r4, #1
    subs r5, r5, #1
    bne 32b
    b 8f
4:  mov r4, #0x40                       @ its enables
    tst r11, #0x80
    movne r4, #0x50
    draw r0
    bl chip_write
    b 8f
5:  mov r4, #0x30                       @ all of the count
    mov r5, #6
51: bl chip_read
    add r4, r4, #1
    subs r5, r5, #1
    bne 51b
    b 8f
6:  draw r4                             @ any register is read, 0 often
    tst r4, #0x300000
    moveq r4, #0
    bl chip_read
    b 8f
7:  draw r1                             @ the bus's words by parts
    ldr r0, =RTC_ADDRESS
    and r2, r1, #0x300
    add r0, r0, r2, lsr #6
    bl store_any
    bl wait_sometimes
8:  load r0, RTC_ADDRESS
    load r0, RTC_DATA
    load r0, RTC_COMMAND
    load r0, RTC_OUT
    pop {r4, r5, pc}

@ Writes r0 into the register r4.
chip_write:
    store r4, RTC_ADDRESS
    store r0, RTC_DATA
    mov r0, #1
    b chip_command

@ Reads the register r4 into r0.
chip_read:
    store r4, RTC_ADDRESS
    mov r0, #2
chip_command:
    store r0, RTC_COMMAND
1:  load r0, RTC_READY
    tst r0, #1
    beq 1b
    load r0, RTC_OUT
    bx lr
    .ltorg

    last
