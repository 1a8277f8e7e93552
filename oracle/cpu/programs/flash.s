@ The flash by its serial port: every command, lengths that are wrong, second
@ selects, bytes while not selected. The program lies in the first block of the
@ array, which is read and not erased, but for a chip erase: that is done from SRAM,
@ and the program laid down again.
    .include "common.inc"
    program flash

flash_start:
    adr r0, chip_erase
    ldr r1, =CODE_SRAM
    adr r2, chip_erase_end
1:  ldr r3, [r0], #4
    str r3, [r1], #4
    cmp r0, r2
    blo 1b
    bx lr

flash_round:
    push {r4-r6, lr}
    choose 12, 1f, 2f, 2f, 3f, 4f, 4f, 4f, 5f, 5f, 6f, 7f, 8f
1:  bl flash_ask                        @ a command that answers, or no command
    b 71f
2:  mov r5, #0x03                       @ a read; a fast one has a byte more
    tst r11, #0x40000
    movne r5, #0x0B
    draw r6
    tst r6, #0x07000000
    ldreq r6, =(FLASH_BYTES - 8)        @ over the end of the array
    bl flash_command
    b 71f
3:  mov r0, #0x06                       @ write enable, or disable
    tst r11, #0xE00
    moveq r0, #0x04
    bl flash_only
    b 9f
4:  mov r0, #0x06                       @ a program of up to 511 bytes, mostly few
    bl flash_only
    mov r5, #0x02
    bl flash_place
    bl flash_command
    draw r5
    and r5, r5, #0x1F
    tst r11, #0x3C000
    orreq r5, r5, #0x1E0
    b 72f
5:  mov r0, #0x06                       @ an erase, mostly of 4 KiB
    tst r11, #0x38000000
    blne flash_only
    draw r0
    adr r1, flash_erases
    and r0, r0, #7
    ldrb r5, [r1, r0]
    bl flash_place
    bl flash_command
    bl flash_deselect
    b 9f
6:  bl flash_ask                        @ a second select, and no deselect
    bl flash_select
    bl wait_sometimes
    draw r0
    bl flash_send
    b 9f
7:  bl flash_deselect                   @ bytes while it is not selected
71: draw r5
    and r5, r5, #0x3F
72: draw r0
    bl flash_send
    subs r5, r5, #1
    bhi 72b
    bl flash_deselect
    b 9f
8:  draw r0                             @ the chip, rarely
    movs r0, r0, lsr #25
    ldr r12, =CODE_SRAM
    blxeq r12
    bl wait_sometimes
9:  load r0, SPIFC_ANSWER
    load r0, SPIFC_STATUS
    load r0, SPIFC_SELECT
    pop {r4-r6, pc}
flash_erases:
    .byte 0x20, 0x20, 0x20, 0x20, 0x20, 0x52, 0x52, 0xD8
    .balign 4
    .ltorg

flash_select:
    mov r0, #FLASH_SELECTED
    store r0, SPIFC_SELECT
    bx lr

flash_deselect:
    mov r0, #0
    store r0, SPIFC_SELECT
    bx lr

@ Selects, and sends a command that changes nothing.
flash_ask:
    push {lr}
    bl flash_select
    draw r0
    adr r1, flash_asks
    and r0, r0, #7
    ldrb r0, [r1, r0]
    bl flash_send
    pop {pc}
flash_asks:
    .byte 0x9F, 0x90, 0xAB, 0x05, 0x35, 0x15, 0x4B, 0xA5

@ The byte r0, and what is answered.
flash_send:
    store r0, SPIFC_SEND
    load r0, SPIFC_ANSWER
    bx lr

@ A command of one byte.
flash_only:
    push {r4, lr}
    mov r4, r0
    bl flash_deselect
    bl flash_select
    mov r0, r4
    bl flash_send
    bl flash_deselect
    pop {r4, pc}

@ An address that is not in the first block, in r6: one in four in a small part
@ of the array, where programs and erases meet. The upper bits have no meaning.
flash_place:
    draw r6
    tst r6, #0x03000000
    biceq r6, r6, #0x7E0000
    orr r6, r6, #0x10000
    bx lr

@ Selects, and sends the command r5 with the address r6; one time in 32 the last
@ byte of it is missing.
flash_command:
    push {r4, lr}
    bl flash_deselect
    bl flash_select
    mov r0, r5
    bl flash_send
    mov r0, r6, lsr #16
    bl flash_send
    mov r0, r6, lsr #8
    bl flash_send
    tst r11, #0xF8000
    mov r0, r6
    blne flash_send
    pop {r4, pc}
    .ltorg

@ Runs in SRAM: erases the chip and copies the program back, with interrupts off,
@ for their handler is gone meanwhile.
chip_erase:
    mrs r3, cpsr
    orr r0, r3, #IRQ_OFF
    msr cpsr_c, r0
    ldr r2, 3f
    mov r0, #FLASH_SELECTED
    mov r1, #0
    str r1, [r2]
    str r0, [r2]
    mov r12, #0x06
    str r12, [r2, #(SPIFC_SEND - SPIFC_BASE)]
    str r1, [r2]
    str r0, [r2]
    mov r12, #0xC7
    tst r11, #4
    movne r12, #0x60
    str r12, [r2, #(SPIFC_SEND - SPIFC_BASE)]
    str r1, [r2]
    ldr r0, 4f
    ldr r1, 5f
    ldr r2, 6f
2:  ldr r12, [r1], #4
    str r12, [r0], #4
    cmp r0, r2
    blo 2b
    msr cpsr_c, r3
    bx lr
3:  .word SPIFC_BASE
4:  .word FLASH_BASE
5:  .word SAVED
6:  .word image_end
chip_erase_end:

    last
