@ Copies within and between RAM, SRAM and GPIO by ARM code: all sizes, all
@ alignments, both directions, also at the ends of memories.
    .include "common.inc"
    program copies

copies_start:
    bx lr

@ A place in one of the memories, in r0, where up to 256 bytes may be written.
copies_place:
    draw r0
    adr r1, copies_places
    and r2, r0, #0x1C
    ldr r1, [r1, r2]
    mov r0, r0, lsr #21
    add r0, r0, r1
    bx lr
copies_places:
    .word WORK_RAM, WORK_RAM + 0x8000, RAM_END - 0x900, FLASH_BASE + 0x100000
    .word WORK_SRAM, WORK_SRAM + 0x8000, GPIO_BASE + 0x200, GPIO_BASE + 0x700

copies_round:
    push {r4-r8, lr}
    bl copies_place
    mov r4, r0
    bl copies_place
    mov r5, r0
    draw r6
    and r6, r6, #0x3F
    add r6, r6, #1
    choose 11, 1f, 2f, 3f, 4f, 5f, 6f, 7f, 8f, 9f, 10f, 11f
1:  ldrb r0, [r4], #1                   @ bytes
    strb r0, [r5], #1
    subs r6, r6, #1
    bne 1b
    b 12f
2:  ldrh r0, [r4], #2                   @ halves
    strh r0, [r5], #2
    subs r6, r6, #1
    bne 2b
    b 12f
3:  ldr r0, [r4], #4                    @ words
    str r0, [r5], #4
    subs r6, r6, #1
    bne 3b
    b 12f
4:  ldrsb r0, [r4, r6]                  @ bytes with their signs, from the end
    str r0, [r5, r6, lsl #2]
    subs r6, r6, #1
    bne 4b
    b 12f
5:  ldrsh r0, [r4, #2]!                 @ halves with their signs
    strh r0, [r5, #2]!
    subs r6, r6, #1
    bne 5b
    b 12f
6:  ldmia r4!, {r0-r3}                  @ four words at once
    stmia r5!, {r0-r3}
    subs r6, r6, #4
    bhi 6b
    b 12f
7:  add r4, r4, #256                    @ four downwards
    add r5, r5, #256
71: ldmdb r4!, {r0-r3}
    stmdb r5!, {r0-r3}
    subs r6, r6, #4
    bhi 71b
    b 12f
8:  ldrd r0, [r4], #8                   @ two words
    strd r0, [r5], #8
    subs r6, r6, #2
    bhi 8b
    b 12f
9:  draw r0                             @ swaps
    swp r1, r0, [r4]
    mix r1
    swpb r1, r0, [r5]
    mix r1
    b 12f
10: ldr r0, [r4, r6, lsl #1]            @ words that are not aligned
    ldr r1, [r4, -r6]
    mix r0
    mix r1
    str r0, [r5, r6, lsl #1]
    subs r6, r6, #1
    bne 10b
    b 12f
11: ldr r0, =RAM_END - 8                @ past the ends, where all reads as 0
    ldmia r0, {r0-r3}
    mix r0
    mix r1
    mix r2
    mix r3
    ldr r0, =SRAM_END - 4
    ldmia r0, {r0-r2}
    mix r0
    mix r1
    mix r2
    bl wait_sometimes
12: ldrb r0, [r5, #-1]
    mix r0
    ldr r0, [r4]
    mix r0
    pop {r4-r8, pc}
    .ltorg

    last
