/* What a host links: C99 and C++98. It uses a call of each object of libtg18.a, and says what it got. */
#include <stdio.h>
#include <stdlib.h>
#include <tg18.h>

static struct tg18_unit unit;
static struct tg18_memories memories;

static uint8_t *bytes(size_t count) {
    uint8_t *made = (uint8_t *)calloc(count, 1);
    if (made == NULL) {
        exit(2);
    }
    return made;
}

/* A timer of 1,000 ticks at 12 MHz: half a second is 6,000 periods, and an interrupt waits. */
static void work(void *argument) {
    uint32_t *value = (uint32_t *)argument;
    tg18_write(&unit, &memories, 0xC0020008u, 4, 0xFC18);
    tg18_write(&unit, &memories, 0xC0020000u, 4, 0x6000);
    tg18_advance(&unit, &memories, 0.5);
    tg18_read(&unit, &memories, 0xC0020010u, 4, value);
}

static uint32_t run_nothing(void) {
    const uint8_t script[8] = {0};
    uint8_t out[4];
    return tg18_run_script(memories.ram, memories.ram_len, memories.sram, memories.sram_len, memories.gpio,
                           memories.gpio_len, memories.framebuffer, memories.framebuffer_len, script, sizeof script,
                           out, sizeof out);
}

/* There is no room for a session. */
static uint32_t save_nowhere(void) {
    uint64_t written = 1;
    uint32_t refusal = tg18_save_scrubbed(&unit, &memories, NULL, 0, &written);
    return written == 0 ? refusal : 0;
}

int main(void) {
    uint32_t value = 0;
    memories.ram = bytes(memories.ram_len = TG18_RAM_BYTES);
    memories.sram = bytes(memories.sram_len = TG18_SRAM_BYTES);
    memories.gpio = bytes(memories.gpio_len = TG18_GPIO_BYTES);
    memories.framebuffer = bytes(memories.framebuffer_len = TG18_FRAMEBUFFER_BYTES);
    tg18_fresh(&unit);
    printf("%s %d %u ", TG18_VERSION, tg18_unit_bytes() == sizeof unit, (unsigned)tg18_scrubbed(work, &value));
    printf("0x%x %u %u ", (unsigned)value, (unsigned)tg18_pending_irq(&unit), (unsigned)run_nothing());
    printf("%u\n", (unsigned)save_nowhere());
    return 0;
}
