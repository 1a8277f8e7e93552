@ Keys on their lines: edges are looked for at every interrupt and in between, and
@ counted; the lines' other bits are written. A key that goes down beeps.
    .include "common.inc"
    program keys

    .set KEY_BITS, 0xE0
    .set LAST_KEYS_AT, KEPT_AT
    .set EDGES_AT, KEPT_AT + 4
    .set BEEP_BASE, TIMER_BASE + SOUND_TIMER * TIMER_STEP

keys_start:
    adr r0, keys_look
    str r0, [r9, #HOOK_AT]
    bx lr

@ The handler's hook: it is called with interrupts off, in any mode; r0 to r3 and
@ r12 are lost.
keys_look:
    load r0, KEY_LINES
    and r0, r0, #KEY_BITS
    ldr r1, [r9, #LAST_KEYS_AT]
    str r0, [r9, #LAST_KEYS_AT]
    eors r2, r0, r1
    bxeq lr
    add r1, r9, #EDGES_AT
1:  movs r3, r2, lsl #24                @ one count for each of the three
    ldr r12, [r1]
    addmi r12, r12, #1
    str r12, [r1], #4
    bics r2, r2, #0x80
    mov r2, r2, lsl #1
    bne 1b
    tst r0, #KEY_BITS
    movne r1, #TIMER_RUNS
    moveq r1, #0
    ldr r12, =BEEP_BASE
    str r0, [r12, #RELOAD_AT]
    str r1, [r12, #CONTROL_AT]
    mix r2
    bx lr

keys_round:
    push {lr}
    choose 6, 1f, 2f, 3f, 3f, 4f, 5f
1:  draw r1                             @ bits beside the keys', or theirs too
    ldr r0, =KEY_LINES
    bl store_any
    b 6f
2:  draw r1                             @ other lines
    and r0, r1, #0xE0
    ldr r2, =GPIO_BASE
    add r0, r0, r2
    bl store_any
    b 6f
3:  mrs r1, cpsr                        @ a look between interrupts
    orr r0, r1, #IRQ_OFF
    msr cpsr_c, r0
    push {r1}
    bl keys_look
    pop {r1}
    msr cpsr_c, r1
    b 6f
4:  bl wait
    b 6f
5:  bl wait_sometimes
6:  ldr r0, =KEY_LINES
    bl load_any
    ldr r0, [r9, #EDGES_AT]
    mix r0
    pop {pc}
    .ltorg

    last
