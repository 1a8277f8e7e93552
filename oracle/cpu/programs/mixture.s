@ All of the others' rounds in any order, but for those of power and idling.
    .set MIXTURE, 1
    .include "common.inc"

main:
    bl timers_start
    bl day_start
    bl panel_start
    bl flash_start
    bl keys_start
    bl modes_start
1:  draw r0
    mov r0, r0, lsr #28
    adr r1, rounds
    ldr r0, [r1, r0, lsl #2]
    blx r0
    b 1b
rounds:
    .word timers_round, day_round, panel_round, adc_round, flash_round, sound_round
    .word chip_round, keys_round, words_round, copies_round, thumb_round, modes_round
    .word wait_sometimes, panel_round, flash_round, wait
    .ltorg

    .include "timers.s"
    .include "day.s"
    .include "panel.s"
    .include "adc.s"
    .include "flash.s"
    .include "sound.s"
    .include "chip.s"
    .include "keys.s"
    .include "words.s"
    .include "copies.s"
    .include "thumb.s"
    .include "modes.s"
    .balign 16
image_end:
