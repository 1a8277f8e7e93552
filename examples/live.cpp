// The same host as live.c in C++: a class that has a unit and its memories, and wipes them when it goes.
// C++11; no exception may leave what runs scrubbed, so refusals are answers here.
#include "tg18.h"
#include <stdio.h>
#include <stdlib.h>

class Unit {
public:
    Unit() {
        memories.ram = memory_of(memories.ram_len = TG18_RAM_BYTES);
        memories.sram = memory_of(memories.sram_len = TG18_SRAM_BYTES);
        memories.gpio = memory_of(memories.gpio_len = TG18_GPIO_BYTES);
        memories.framebuffer = memory_of(memories.framebuffer_len = TG18_FRAMEBUFFER_BYTES);
        tg18_fresh(&unit);
    }

    ~Unit() {
        if (scrubbed([this] { wipe(); }) != TG18_DONE) {
            wipe(); // no memory for a stack: wiped all the same
        }
        free(memories.ram);
        free(memories.sram);
        free(memories.gpio);
        free(memories.framebuffer);
    }

    // The state is plain data, but a copy of it without the memories would be no unit.
    Unit(const Unit &) = delete;
    Unit &operator=(const Unit &) = delete;

    uint32_t write(uint32_t address, uint32_t value, uint32_t size = 4) {
        return tg18_write(&unit, &memories, address, size, value);
    }

    // What is refused reads as 0.
    uint32_t read(uint32_t address, uint32_t size = 4) {
        uint32_t value;
        tg18_read(&unit, &memories, address, size, &value);
        return value;
    }

    uint32_t advance(double now) { return tg18_advance(&unit, &memories, now); }

    double next_event() const {
        double time;
        tg18_next_event(&unit, &memories, &time);
        return time;
    }

    uint32_t pending() const { return tg18_pending_irq(&unit); }
    uint32_t press(uint32_t key, double at) { return tg18_press(&unit, key, at); }
    uint32_t keys() const { return tg18_keys_held(&unit); }
    bool take(tg18_event &event) { return tg18_take_events(&unit, &event, 1) == 1; }
    uint32_t wipe() { return tg18_wipe(&unit, &memories); }

    uint32_t poke(uint32_t address, const uint8_t *bytes, size_t count) {
        return tg18_poke(&unit, &memories, address, bytes, count);
    }

    uint32_t screen(uint8_t *rgb, size_t count) const { return tg18_screen(&memories, rgb, count); }

    // Runs work on a stack of its own, which is cleared behind it.
    template <typename Work> static uint32_t scrubbed(Work work) {
        return tg18_scrubbed([](void *argument) { (*static_cast<Work *>(argument))(); }, &work);
    }

private:
    static uint8_t *memory_of(size_t bytes) {
        void *at = calloc(bytes, 1);
        if (at == nullptr) {
            fprintf(stderr, "memory failed\n");
            exit(1);
        }
        return static_cast<uint8_t *>(at);
    }

    tg18_unit unit;
    tg18_memories memories;
};

static void timer(Unit &unit) {
    unit.write(0xC0020008, 0xFC18);
    unit.write(0xC0020000, 0x6000);
    double next = unit.next_event();
    unit.advance(next);
    printf("at %.9f s interrupt %u waits\n", next, unit.pending());
    unit.write(0xC0020000, 0);
}

static void tone(Unit &unit) {
    tg18_event event;
    unit.write(0xC0020088, 0xA240);
    unit.write(0xC002008C, 0xD120);
    unit.write(0xC0020080, 0x2000);
    while (unit.take(event)) {
        printf("at %.9f s a tone of %.2f Hz, duty %.2f\n", event.time, event.frequency, event.duty);
    }
}

static void key(Unit &unit) {
    unit.press(1, 0.25);
    unit.advance(0.3);
    printf("keys held %u, their lines 0x%02x\n", unit.keys(), unit.read(0xC0000020));
}

static void picture(Unit &unit) {
    static const uint8_t orange[2] = {0x20, 0xFC};
    static uint8_t rgb[TG18_SCREEN_BYTES];
    unit.poke(0x20000000, orange, sizeof orange);
    unit.write(0xD050033C, 0x20000000);
    unit.write(0xD0500140, 0xD1);
    unit.screen(rgb, sizeof rgb);
    printf("first pixel %u %u %u\n", rgb[0], rgb[1], rgb[2]);
}

int main() {
    Unit unit;
    uint32_t refusal = 1;
    timer(unit);
    tone(unit);
    key(unit);
    picture(unit);
    Unit::scrubbed([&] {
        refusal = unit.write(0x20800000, 0x5EC2E7);
        refusal |= unit.wipe();
    });
    printf("wiped: %u, and 0x%x is there\n", refusal, unit.read(0x20800000));
    return 0;
}
