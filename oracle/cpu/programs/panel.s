@ The panel: windows, pixels, half pixels, other commands, DMA, and both of its
@ interrupts.
    .include "common.inc"
    program panel

panel_start:
    mov r0, #VSYNC
    orr r0, r0, #DMA_DONE
    store r0, LCD_ENABLE
    bx lr

panel_round:
    push {r4-r6, lr}
    choose 10, 1f, 1f, 2f, 2f, 2f, 3f, 4f, 5f, 6f, 7f
1:  bl panel_window
    b 9f
2:  bl panel_paint
    b 9f
3:  draw r0                             @ a half pixel, or one more argument
    bl panel_byte
    b 9f
4:  draw r0                             @ any command, with up to seven bytes
    bl panel_command
    below r5, 8
    b 42f
41: draw r0
    bl panel_byte
42: subs r5, r5, #1
    bhs 41b
    b 9f
5:  bl panel_dma
    b 9f
6:  draw r1                             @ its control, of no meaning mostly
    bic r1, r1, #0x50
    ldr r0, =LCD_CONTROL
    bl store_any
    b 9f
7:  draw r1                             @ the enable, and the status by a part
    and r1, r1, #DMA_DONE
    orr r1, r1, #VSYNC
    store r1, LCD_ENABLE
    draw r1
    ldr r0, =LCD_STATUS
    bl store_any
    bl wait_sometimes
9:  ldr r0, =LCD_STATUS
    bl load_any
    load r0, LCD_CONTROL
    load r0, LCD_DATA
    pop {r4-r6, pc}
    .ltorg

panel_command:
    and r0, r0, #0xFF
    store r0, LCD_DATA
    mov r0, #SEND_COMMAND
    store r0, LCD_CONTROL
    bx lr

panel_byte:
    store r0, LCD_DATA
    ldr r0, =SEND_BYTE
    store r0, LCD_CONTROL
    bx lr

panel_two:
    store r0, LCD_DATA
    mov r0, #SEND_TWO
    store r0, LCD_CONTROL
    bx lr

@ Both ends of a direction: in order and on the glass, one time in eight any.
panel_ends:
    push {r4, r5, lr}
    bl panel_command
    below r4, LCD_W
    below r5, LCD_W
    cmp r4, r5
    eorhi r4, r4, r5
    eorhi r5, r4, r5
    eorhi r4, r4, r5
    draw r0
    tst r0, #7
    moveq r4, r0, lsr #23
    moveq r5, r0, lsr #14
    mov r0, r4
    bl panel_two
    mov r0, r5
    bl panel_two
    pop {r4, r5, pc}

panel_window:
    push {lr}
    mov r0, #COLUMNS
    bl panel_ends
    mov r0, #ROWS
    bl panel_ends
    pop {pc}

@ Up to 255 pixels from the window's beginning on.
panel_paint:
    push {r4, lr}
    mov r0, #PAINT
    bl panel_command
    draw r4
    and r4, r4, #0xFF
1:  draw r0
    bl panel_two
    subs r4, r4, #1
    bhi 1b
    pop {r4, pc}

@ A picture from RAM or SRAM mostly, rarely from a seam of the map.
panel_dma:
    push {lr}
    draw r0
    tst r0, #0xE000
    bne 2f
    tst r0, #0xF0000
    bne 1f
    adr r1, panel_seams
    and r0, r0, #0xC
    ldr r0, [r1, r0]
    b 3f
1:  ldr r1, =WORK_SRAM
    mov r0, r0, lsr #14
    add r0, r0, r1
    b 3f
2:  ldr r1, =FLASH_BASE
    mov r0, r0, lsr #9
    add r0, r0, r1
3:  store r0, LCD_DMA
    mov r0, #START_DMA
    store r0, LCD_CONTROL
    pop {pc}
panel_seams:
    .word 0, SRAM_END - 0x123, RAM_END - 0x4567, GPIO_BASE + 0x20
    .ltorg

    last
