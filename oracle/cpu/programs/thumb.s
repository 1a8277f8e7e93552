@ Thumb code that sorts, copies and counts in RAM, SRAM and registers, and goes to
@ ARM code and back.
    .include "common.inc"
    program thumb

thumb_start:
    ldr r0, =0xE000
    ldr r1, =TIMER_BASE
    str r0, [r1, #RELOAD_AT]
    mov r0, #TIMER_RUNS
    orr r0, r0, #TIMER_IRQ_ON
    str r0, [r1, #CONTROL_AT]
    bx lr

thumb_round:
    push {r4-r7, lr}
    draw r0
    draw r1
    mov r2, r1, lsr #24
    ldr r3, =WORK_RAM
    ldr r4, =WORK_SRAM
    tst r0, #0x100
    eorne r3, r3, r4
    eorne r4, r3, r4
    eorne r3, r3, r4
    ldr r12, =thumb_work
    blx r12
    mix r0
    mix r1
    mix r2
    below r0, 200
    cmp r0, #0
    bleq wait
    pop {r4-r7, pc}
    .ltorg

@ In r0 and r1 are numbers, in r2 a count, and in r3 and r4 two places.
    .thumb
    .thumb_func
thumb_work:
    push {r0-r7, lr}
    movs r5, #7
    ands r5, r0
    lsls r5, r5, #1
    add pc, r5
    nop
    b thumb_bytes
    b thumb_halves
    b thumb_words
    b thumb_blocks
    b thumb_signs
    b thumb_sums
    b thumb_registers
    b thumb_stack

thumb_bytes:
    ldrb r6, [r3, r2]
    strb r6, [r4, r2]
    ldrb r7, [r3, #31]
    adds r0, r0, r6
    eors r0, r7
    subs r2, r2, #1
    bpl thumb_bytes
    b thumb_end

thumb_halves:
    lsls r2, r2, #1
1:  ldrh r6, [r3, r2]
    strh r6, [r4, r2]
    strh r0, [r4, #62]
    ldrh r7, [r4, #60]
    adcs r0, r6
    rors r0, r7
    subs r2, r2, #2
    bpl 1b
    b thumb_end

thumb_words:
    lsls r2, r2, #1
1:  ldr r6, [r3, r2]
    str r6, [r4, r2]
    ldr r7, [r3, #124]
    str r7, [r4, #120]
    sbcs r0, r6
    bics r1, r7
    subs r2, r2, #2
    bpl 1b
    b thumb_end

thumb_blocks:
    ldmia r3!, {r0, r5, r6, r7}
    adds r1, r1, r0
    eors r1, r6
    stmia r4!, {r1, r5, r6, r7}
    subs r2, r2, #8
    bpl thumb_blocks
    b thumb_end

thumb_signs:
    ldrsb r6, [r3, r2]
    ldrsh r7, [r4, r2]
    muls r6, r7
    adds r0, r0, r6
    asrs r7, r6, #3
    mvns r7, r7
    eors r1, r7
    subs r2, r2, #1
    bpl thumb_signs
    b thumb_end

thumb_sums:
    ldr r6, [r3, r2]
    cmp r6, r0
    bhi 1f
    negs r6, r6
1:  cmn r6, r1
    bvs 2f
    orrs r1, r6
2:  lsrs r7, r6, #9
    lsls r5, r6, #5
    adds r0, r0, r7
    subs r1, r1, r5
    tst r1, r0
    bne 3f
    adds r0, #77
3:  mov r8, r0
    add r8, r1
    mov r7, r8
    cmp r7, r8
    bne thumb_end
    subs r2, #4
    bpl thumb_sums
    b thumb_end

thumb_registers:
    ldr r5, =INTC_MASK
    ldr r6, [r5]
    adds r0, r0, r6
    ldr r5, =TIMER_BASE
    strb r0, [r5, #RELOAD_AT]
    ldrh r6, [r5, #COUNTER_AT]
    eors r0, r6
    ldr r5, =0xC0010010
    str r1, [r5]
    strh r0, [r5, #2]
    ldrb r6, [r5, #3]
    adds r1, r1, r6
    b thumb_end

thumb_stack:
    sub sp, #24
    str r0, [sp, #4]
    str r1, [sp, #20]
    add r5, sp, #4
    ldr r6, [r5, #16]
    ldr r7, [sp, #4]
    adr r5, thumb_numbers
    ldr r5, [r5]
    adds r0, r6, r5
    subs r1, r7, #5
    add sp, #24
    blx thumb_in_arm
    b thumb_end

    .balign 4
thumb_numbers:
    .word 0x13579BDF

thumb_end:
    mov r5, sp
    str r0, [r5]
    str r1, [sp, #4]
    bl thumb_leaf
    pop {r0-r7, pc}
    .ltorg

    .thumb_func
thumb_leaf:
    ldr r6, [sp]
    adds r6, r6, r3
    str r6, [sp, #8]
    bx lr

    .balign 4
    .arm
thumb_in_arm:
    smlabb r0, r0, r1, r0
    smulwt r1, r0, r1
    qadd r0, r0, r1
    qdsub r1, r1, r0
    umlal r0, r1, r6, r7
    clz r6, r0
    add r0, r0, r6
    bx lr

    last
