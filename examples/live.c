// A host in C with a live unit: a timer's interrupt, a tone, a key, a picture, and a secret that leaves no copy.
// host/README.md says what it is compiled and linked with.
#include "tg18.h"
#include <stdio.h>
#include <stdlib.h>

static struct tg18_unit unit;
static struct tg18_memories memories;

static void need(const char *what, int is_good) {
    if (!is_good) {
        fprintf(stderr, "%s failed\n", what);
        exit(1);
    }
}

static uint8_t *memory_of(size_t bytes) {
    uint8_t *at = calloc(bytes, 1);
    need("memory", at != NULL);
    return at;
}

static void put(uint32_t address, uint32_t value) {
    need("a write", tg18_write(&unit, &memories, address, 4, value) == TG18_DONE);
}

static uint32_t get(uint32_t address) {
    uint32_t value;
    need("a read", tg18_read(&unit, &memories, address, 4, &value) == TG18_DONE);
    return value;
}

// Timer 0 with a period of 1,000 at 12 MHz: the host goes on to when something can happen.
static void timer(void) {
    double next;
    put(0xC0020008, 0xFC18);
    put(0xC0020000, 0x6000);
    need("the next event", tg18_next_event(&unit, &memories, &next) == TG18_DONE);
    need("an advance", tg18_advance(&unit, &memories, next) == TG18_DONE);
    printf("at %.9f s interrupt %u waits\n", next, tg18_pending_irq(&unit));
    put(0xC0020000, 0);
}

// Timer 4 is the buzzer.
static void tone(void) {
    struct tg18_event event;
    put(0xC0020088, 0xA240);
    put(0xC002008C, 0xD120);
    put(0xC0020080, 0x2000);
    while (tg18_take_events(&unit, &event, 1) == 1) {
        printf("at %.9f s a tone of %.2f Hz, duty %.2f\n", event.time, event.frequency, event.duty);
    }
}

static void key(void) {
    need("a press", tg18_press(&unit, 1, 0.25) == TG18_DONE);
    need("an advance", tg18_advance(&unit, &memories, 0.3) == TG18_DONE);
    printf("keys held %u, their lines 0x%02x\n", tg18_keys_held(&unit), get(0xC0000020));
}

// One orange pixel in RAM, copied to the screen.
static void picture(void) {
    static const uint8_t orange[2] = {0x20, 0xFC};
    static uint8_t rgb[TG18_SCREEN_BYTES];
    need("a poke", tg18_poke(&unit, &memories, 0x20000000, orange, sizeof orange) == TG18_DONE);
    put(0xD050033C, 0x20000000);
    put(0xD0500140, 0xD1);
    need("the screen", tg18_screen(&memories, rgb, sizeof rgb) == TG18_DONE);
    printf("first pixel %u %u %u\n", rgb[0], rgb[1], rgb[2]);
}

// Whatever handles a secret goes into one function, with the wipe behind it. It must return, so it ends nothing.
static void secret(void *argument) {
    uint32_t *refusal = argument;
    *refusal = tg18_write(&unit, &memories, 0x20800000, 4, 0x5EC2E7);
    *refusal |= tg18_wipe(&unit, &memories);
}

int main(void) {
    uint32_t refusal = 1;
    memories = (struct tg18_memories){memory_of(TG18_RAM_BYTES),  TG18_RAM_BYTES,
                                      memory_of(TG18_SRAM_BYTES), TG18_SRAM_BYTES,
                                      memory_of(TG18_GPIO_BYTES), TG18_GPIO_BYTES,
                                      memory_of(TG18_FRAMEBUFFER_BYTES), TG18_FRAMEBUFFER_BYTES};
    tg18_fresh(&unit);
    timer();
    tone();
    key();
    picture();
    need("a stack", tg18_scrubbed(secret, &refusal) == TG18_DONE);
    printf("wiped: %u, and 0x%x is there\n", refusal, get(0x20800000));
    free(memories.ram);
    free(memories.sram);
    free(memories.gpio);
    free(memories.framebuffer);
    return 0;
}
