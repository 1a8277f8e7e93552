@ Interrupts in all modes of the processor, with their registers of their own; masks,
@ and the controller's switch.
    .include "common.inc"
    program modes

modes_start:
    push {lr}
    ldr r0, =0xC000
    ldr r1, =TIMER_BASE
    str r0, [r1, #RELOAD_AT]
    mov r0, #TIMER_RUNS
    orr r0, r0, #TIMER_IRQ_ON
    str r0, [r1, #CONTROL_AT]
    mov r0, #RTC_TICK_BIT
    store r0, RTC_IRQ_ENABLE
    mov r0, #ADC_START
    orr r0, r0, #ADC_IRQ_ON
    store r0, ADC_CONTROL
    pop {pc}

modes_round:
    push {r4-r8, lr}
    choose 6, 1f, 1f, 2f, 3f, 4f, 5f
1:  bl modes_visit
    b 6f
2:  draw r1                             @ all masked, or some, for a while
    store r1, INTC_MASK
    load r0, INTC_PENDING
    mov r4, #500
21: subs r4, r4, #1
    bne 21b
    mov r0, #0
    store r0, INTC_MASK
    b 6f
3:  draw r1                             @ switched off for a while
    store r1, INTC_DISABLE
    mov r4, #500
31: subs r4, r4, #1
    bne 31b
    load r0, INTC_DISABLE
    mov r0, #0
    store r0, INTC_DISABLE
    b 6f
4:  draw r1                             @ by parts
    ldr r0, =INTC_MASK
    bl store_any
    ldr r0, =INTC_MASK
    bl load_any
    load r0, INTC_PENDING
    mov r0, #0
    store r0, INTC_MASK
    b 6f
5:  load r0, ADC_CONTROL                @ another conversion, and a wait
    bic r0, r0, #ADC_START
    store r0, ADC_CONTROL
    orr r0, r0, #ADC_START
    store r0, ADC_CONTROL
    bl wait_sometimes
6:  ldr r0, =INTC_PENDING
    bl load_any
    mrs r0, cpsr
    mix r0
    mrs r0, spsr
    mix r0
    pop {r4-r8, pc}
    .ltorg

@ Some time in another mode with interrupts on, whose registers are used. Only FIQ
@ has all of r8 to r12 of its own.
modes_visit:
    mrs r4, cpsr
    draw r6
    adr r0, modes_list
    and r1, r6, #7
    ldrb r7, [r0, r1]
    orr r0, r7, #IRQ_OFF
    msr cpsr_c, r0
    ldr sp, =OTHER_STACK
    mov lr, r6
    msr spsr_cxsf, r6
    mov r8, r6, ror #3
    cmp r7, #MODE_FIQ
    eoreq r9, r9, r6
    addeq r10, r10, r6, ror #9
    mvneq r11, r6
    subeq r12, r12, r6
    msr cpsr_c, r7
    mov r3, #700
1:  add lr, lr, r3, ror #4
    eor r8, r8, lr
    push {r8, lr}
    subs r3, r3, #1
    pop {r8, lr}
    bne 1b
    mov r0, lr
    mov r1, r8
    orr r2, r7, #IRQ_OFF
    msr cpsr_c, r2
    msr cpsr_c, r4
    mix r0
    mix r1
    bx lr
modes_list:
    .byte MODE_SYS, MODE_FIQ, MODE_ABT, MODE_UND, MODE_FIQ, MODE_SYS, MODE_UND, MODE_ABT
    .ltorg

    last
