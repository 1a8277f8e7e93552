@ The ADC: conversions that are waited for, asked about, broken off and repeated.
    .include "common.inc"
    program adc

adc_start:
    bx lr

adc_round:
    push {lr}
    choose 6, 1f, 1f, 2f, 3f, 4f, 5f
1:  load r0, ADC_CONTROL                @ a conversion with its interrupt
    bic r0, r0, #ADC_START
    store r0, ADC_CONTROL
    orr r0, r0, #ADC_START
    orr r0, r0, #ADC_IRQ_ON
    store r0, ADC_CONTROL
    tst r11, #0x700
    bleq wait
    b 6f
2:  mov r0, #0                          @ one without, until it is done
    store r0, ADC_CONTROL
    mov r0, #ADC_START
    store r0, ADC_CONTROL
    tst r11, #0x3C00
    bne 6f
21: load r0, ADC_CONTROL
    tst r0, #0x80
    beq 21b
    b 6f
3:  draw r1                             @ any control
    ldr r0, =ADC_CONTROL
    bl store_any
    b 6f
4:  draw r1                             @ the result is a word like others
    ldr r0, =ADC_RESULT
    bl store_any
    b 6f
5:  bl wait_sometimes
6:  ldr r0, =ADC_CONTROL
    bl load_any
    ldr r0, =ADC_RESULT
    bl load_any
    pop {pc}
    .ltorg

    last
