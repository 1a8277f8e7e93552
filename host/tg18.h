/* The tg18 register bus for hosts in C and C++ on x86-64.
 *
 * Link target/staticlib/libtg18.a (host/archive makes it) for tg18_run_script; beside it host/live.c for the calls of a
 * live unit; and host/scrubbed.c, host/scrubbed_x86_64.S and, for sessions, host/scrubbed_session.c for tg18_scrubbed
 * and the calls that are named so, which are about what is left behind. host/install puts all of them into one library.
 *
 * A script, little-endian, without gaps:
 *     u32             p, how many presses (at most 4,096)
 *     p times         u8 key (0 A, 1 B, 2 C), f64 time
 *     u32             s, how many steps (at most 4,096)
 *     s times         u8 kind (1 to 12), u8 size, two unused bytes, u32 address, u64 value
 * Presses are entered first, in their order; then the steps are done, in theirs, from the fresh state of all devices.
 * Kinds are said below. A step that is refused changes nothing, and the next one follows.
 *
 * The answers, little-endian, without gaps:
 *     u32             p + s
 *     p + s times     u8 refusal (0 to 13, below), u64 a, u64 b, u64 c; unused ones are 0, as all three are
 *                     beside a refusal
 * What `out` has behind them stays as it was.
 *
 * Of the caller it is asked that each pointer is that of as many bytes as the length beside it says, readable, and
 * writable but for the script's; that no two of the six slices overlap; and that nothing else touches them meanwhile.
 * A slice of length 0 may have any pointer. Lengths, contents of the memories, script and out may be anything.
 *
 * The answer is 0, or the number by which the script is refused as a whole: 7 if a memory has another length than
 * below, else 10 if it is not a script, else 11 if out is too short. Then no byte of any slice has changed.
 */
#ifndef TG18_H
#define TG18_H

#include <stddef.h>
#include <stdint.h>

#ifdef __cplusplus
extern "C" {
#endif

enum tg18_refusal {
    TG18_DONE = 0,
    /* not finite, sign bit set, above 2,097,152.0; an advance back, or game time above 2,147,483,648.0 */
    TG18_BAD_TIME = 1,
    TG18_BAD_TURBO = 2,       /* outside 1/1024 to 1024, or not a number */
    TG18_KEYS_FULL = 3,       /* 64 presses are not over */
    TG18_REGISTERS_FULL = 4,  /* 256 words without storage of their own are not zero */
    TG18_SOUND_FULL = 5,      /* 256 sound events wait */
    TG18_STRAY_WRITE = 6,     /* a write's first byte is neither memory nor register */
    TG18_BAD_MEMORY = 7,      /* a memory, or what tg18_screen is lent, of another length */
    TG18_BAD_KEY = 8,
    TG18_BAD_SIZE = 9,        /* not 1, 2 or 4 */
    /* of a whole script: a count above 4,096, another length than 8 + 9p + 16s, a kind outside 1 to 12 */
    TG18_BAD_SCRIPT = 10,
    TG18_OUT_TOO_SHORT = 11,  /* of a whole script */
    TG18_NO_EVENT = 12,       /* no sound event waits */
    TG18_NO_NEXT_TIME = 13,   /* the next event's time is not finite */
    TG18_BAD_SAVE = 14,       /* bytes that are no saved session; docs/SESSIONS.md says when */
    TG18_SAVE_TOO_SHORT = 15, /* too few bytes for the session */
    /* of tg18_scrubbed and the calls named so alone: no memory for a stack; nothing was run or has changed */
    TG18_NO_STACK = 256
};

enum tg18_kind {
    TG18_READ = 1,      /* size, address; a is what was read */
    TG18_WRITE = 2,     /* size, address, value modulo 2^32 */
    TG18_ADVANCE = 3,   /* value: bits of the f64 time */
    TG18_NEXT = 4,      /* a: bits of the next event's time */
    TG18_PENDING = 5,   /* a: interrupt that waits, 0 for none */
    TG18_TURBO = 6,     /* value: bits of the f64 factor */
    TG18_KEY = 7,       /* address: key; value: not 0 is down */
    TG18_HOLD = 8,      /* address: key; value: bits of the f64 time until which it is held */
    TG18_SOUND = 9,     /* takes a sound event; a, b, c: bits of time, frequency and duty */
    TG18_COUNTERS = 10, /* a frames, b flash writes, c 1 if powered off */
    TG18_COLOUR = 11,   /* address: pixel, modulo 16,384; a: red * 65536 + green * 256 + blue */
    TG18_WIPE = 12      /* fresh state, and all four memories zero */
};

enum tg18_size {
    TG18_RAM_BYTES = 16777216, /* at 0x20000000; the first 8 MiB are the flash's array */
    TG18_SRAM_BYTES = 1048576, /* at 0xF8000000 */
    TG18_GPIO_BYTES = 4096,    /* at 0xC0000000 */
    TG18_FRAMEBUFFER_BYTES = 32768,
    TG18_SCREEN_WIDTH = 128,
    TG18_SCREEN_HEIGHT = 128,
    TG18_SCREEN_BYTES = 49152, /* of tg18_screen */
    TG18_MOST_PRESSES = 4096,
    TG18_MOST_STEPS = 4096,
    TG18_PRESS_BYTES = 9,
    TG18_STEP_BYTES = 16,
    TG18_ANSWER_BYTES = 25,
    TG18_SAVE_MOST = 17872533, /* bytes that a saved session has at most */
    TG18_SCRUBBED_BYTES = 262144 /* of stack, for tg18_scrubbed */
};

/* bytes of a script of p presses and s steps, and of its answers */
#define TG18_SCRIPT_BYTES(p, s) (8 + TG18_PRESS_BYTES * (size_t)(p) + TG18_STEP_BYTES * (size_t)(s))
#define TG18_OUT_BYTES(p, s) (4 + TG18_ANSWER_BYTES * ((size_t)(p) + (size_t)(s)))

/* Proved: for every input the slices and the answer are afterwards what crates/runner/specs say. What is left on the
 * caller's stack and in registers is not spoken of, and bytes of the memories may be among it, also after a wipe. */
uint32_t tg18_run_script(uint8_t *ram, size_t ram_len, uint8_t *sram, size_t sram_len, uint8_t *gpio, size_t gpio_len,
                         uint8_t *framebuffer, size_t framebuffer_len, const uint8_t *script, size_t script_len,
                         uint8_t *out, size_t out_len);

/* The same on a stack of its own, which is cleared and given back afterwards, as are the registers; see
 * host/README.md for what that reaches. Signals to this thread wait until it is done. It is tg18_scrubbed (below)
 * around one call. Not proved, but tested (host/tests/key.c). */
uint32_t tg18_run_script_scrubbed(uint8_t *ram, size_t ram_len, uint8_t *sram, size_t sram_len, uint8_t *gpio,
                                  size_t gpio_len, uint8_t *framebuffer, size_t framebuffer_len, const uint8_t *script,
                                  size_t script_len, uint8_t *out, size_t out_len);

/* ---- A live unit
 *
 * The calls below work on a unit that stays where the host put it: a read here, a write there, for as long as it
 * likes. `struct tg18_unit` is all of the state; the four memories are the host's too, and every call is told where
 * they are.
 *
 * Of the caller it is asked that the unit is writable memory of sizeof (struct tg18_unit) bytes, 8-aligned; that the
 * memories are there with the lengths that are said; that no two of unit, memories and whatever else is lent to a call
 * overlap; that nothing else touches them during the call; and that every other pointer is one to what its type says.
 * A pointer beside the length 0 may be anything. What the unit and the memories hold, and every number, may be
 * anything: any bytes are a unit, any double is taken, a NaN too.
 *
 * A call ends, and answers 0 or the number of its refusal, but where it is said to answer the value itself. A call that
 * is lent the memories answers 7 where one has not the length of a unit's. A refused call changes nothing but what it
 * answers through a pointer, which is then 0; tg18_read_block, tg18_screen, tg18_continue_script and tg18_save leave
 * the bytes that they were lent. Two calls with the same unit, or over the same memories, must not run at once. Calls
 * with units and memories of their own may, in as many threads as one likes: there is nothing else that they share.
 *
 * Proved of the functions that live.c calls: for every input the unit, the memories and the answers are afterwards
 * what crates/live/specs say, which is what a script's step of the same kind does; for sessions it is what
 * crates/session/specs say. live.c passes pointers on; it is tested, not proved. Bits of a NaN that is in the unit are
 * not promised: they may become another NaN's.
 */

#define TG18_VERSION_MAJOR 1
#define TG18_VERSION_MINOR 1
#define TG18_VERSION "1.1"

struct tg18_memories {
    uint8_t *ram;
    size_t ram_len; /* TG18_RAM_BYTES; so with the others */
    uint8_t *sram;
    size_t sram_len;
    uint8_t *gpio;
    size_t gpio_len;
    uint8_t *framebuffer;
    size_t framebuffer_len;
};

/* The state: plain data with no pointer in it. It may be copied and kept while no call is at work on it, by builds of
 * one version. What stands where is not for hosts to read. */
struct tg18_unit {
    uint64_t cells[51];
    double floats[16];
    double onsets[256], frequencies[256], duties[256];
    double starts[64];
    uint32_t slots[76];
    uint32_t addresses[256], values[256];
    uint8_t rtc[256], page[256], codes[64];
};

/* A change of the buzzer: when, its frequency in Hz (0 is off) and its duty. */
struct tg18_event {
    double time, frequency, duty;
};

/* sizeof (struct tg18_unit), as the library was built: for hosts that have no C header. */
size_t tg18_unit_bytes(void);

/* The fresh state, whatever the unit held. Memories are not touched. */
void tg18_fresh(struct tg18_unit *unit);

/* The fresh state, and all four memories zero. 0 or 7. */
uint32_t tg18_wipe(struct tg18_unit *unit, const struct tg18_memories *memories);

/* On the bus. `size` is 1, 2 or 4. Both 0, 7 or 9; a write also 6, 4 or 5. A read can change the unit. */
uint32_t tg18_read(struct tg18_unit *unit, const struct tg18_memories *memories, uint32_t address, uint32_t size,
                   uint32_t *value);
uint32_t tg18_write(struct tg18_unit *unit, const struct tg18_memories *memories, uint32_t address, uint32_t size,
                    uint32_t value);

/* Time in seconds since the unit was fresh; after tg18_resume the session's time goes on, which may be an earlier one
 * than the unit had. 0, 7 or 1. */
uint32_t tg18_advance(struct tg18_unit *unit, const struct tg18_memories *memories, double now);

/* When something can happen next. 0, 7 or 13. */
uint32_t tg18_next_event(const struct tg18_unit *unit, const struct tg18_memories *memories, double *time);

/* The interrupt that waits, 0 for none; and 1 if one waits and interrupts are on, else 0. The values themselves. */
uint32_t tg18_pending_irq(const struct tg18_unit *unit);
uint32_t tg18_irq_wanted(const struct tg18_unit *unit);

/* How many times as fast game time goes. 0 or 2. */
uint32_t tg18_turbo(struct tg18_unit *unit, double factor);

/* Keys are 0 A, 1 B, 2 C; `down` is 0 for up. A key is seen on its line at the next advance. 0 or 8; the two with a
 * time also 1, and tg18_press 3. */
uint32_t tg18_live_key(struct tg18_unit *unit, uint32_t key, uint32_t down);
uint32_t tg18_hold_until(struct tg18_unit *unit, uint32_t key, double until);
uint32_t tg18_press(struct tg18_unit *unit, uint32_t key, double at);

/* Which keys are down at the unit's time: 1 A, 2 B, 4 C, added. The value itself. */
uint32_t tg18_keys_held(const struct tg18_unit *unit);

/* Takes sound events, oldest first, as many as wait or as there are records; their number is the answer. Later records
 * stay as they were. */
size_t tg18_take_events(struct tg18_unit *unit, struct tg18_event *records, size_t count);

/* Frames drawn, writes of the flash, and 1 if the power is off. */
void tg18_counters(const struct tg18_unit *unit, uint64_t *frames, uint64_t *flash_writes, uint32_t *off);

/* The screen, row by row, three bytes a pixel. 0, or 7: also where `bytes` is not TG18_SCREEN_BYTES. */
uint32_t tg18_screen(const struct tg18_memories *memories, uint8_t *rgb, size_t bytes);

/* Bytes of the bus without side effects: of a memory, or as stored of a register, or 0. tg18_read_block says by `whole`
 * (1 or 0) whether the first lies in a memory and so do all the others, in the same one; or, where the first is neither
 * of a memory nor of a register, whether all have the same upper 16 bits of their address. 0 or 7. */
uint32_t tg18_peek8(const struct tg18_unit *unit, const struct tg18_memories *memories, uint32_t address,
                    uint8_t *value);
uint32_t tg18_peek32(const struct tg18_unit *unit, const struct tg18_memories *memories, uint32_t address,
                     uint32_t *value);
uint32_t tg18_read_block(const struct tg18_unit *unit, const struct tg18_memories *memories, uint32_t address,
                         uint8_t *bytes, size_t count, uint32_t *whole);

/* Lays bytes into memories; those that fall elsewhere are dropped. 0 or 7. */
uint32_t tg18_poke(struct tg18_unit *unit, const struct tg18_memories *memories, uint32_t address,
                   const uint8_t *bytes, size_t count);

/* Seconds of the day; ticks of the RTC at 32,768 Hz. The values themselves. tg18_alarm_ticks answers 1 and the alarm's
 * ticks, or 0 (and ticks 0) where no alarm is on. */
int64_t tg18_tod(const struct tg18_unit *unit);
int64_t tg18_ticks(const struct tg18_unit *unit);
uint32_t tg18_alarm_ticks(const struct tg18_unit *unit, int64_t *ticks);

/* A script, as above, from where the unit stands. tg18_run_script is tg18_fresh and this in one, on a unit that is
 * gone afterwards. */
uint32_t tg18_continue_script(struct tg18_unit *unit, const struct tg18_memories *memories, const uint8_t *script,
                              size_t script_len, uint8_t *out, size_t out_len);

/* Saves the session: all of the unit but how many periods each timer has seen and presses that are over, and the four
 * memories, as bytes by the layout of docs/SESSIONS.md. `written` is how many. TG18_SAVE_MOST are always room enough,
 * and what `out` has behind the session stays as it was. 0, 7 or 15. A unit of any bytes is saved, but one that no run
 * has left may be refused as a session.
 *
 * tg18_resume reads such bytes: unit and memories are then as they were saved, whatever they held and whatever time it
 * was. Only the timers' periods are counted anew, as the Rust's timers_resync does, and entries of tables stand in
 * their first places. So a timer whose control or reload word, or the clock's word in SRAM, was changed since the timer
 * was started may raise its interrupt sooner or later than it would have, and tg18_next_event says so; all else goes
 * on as it would have. Saving again gives the same bytes. 0, 7 or 14. */
uint32_t tg18_save(const struct tg18_unit *unit, const struct tg18_memories *memories, uint8_t *out, size_t out_len,
                   uint64_t *written);
uint32_t tg18_resume(struct tg18_unit *unit, const struct tg18_memories *memories, const uint8_t *saved,
                     size_t saved_len);

/* The same two inside tg18_scrubbed (below): also TG18_NO_STACK, and then nothing has changed, and `written` is 0. */
uint32_t tg18_save_scrubbed(const struct tg18_unit *unit, const struct tg18_memories *memories, uint8_t *out,
                            size_t out_len, uint64_t *written);
uint32_t tg18_resume_scrubbed(struct tg18_unit *unit, const struct tg18_memories *memories, const uint8_t *saved,
                              size_t saved_len);

/* Calls `work` with this argument on a stack of its own, which is cleared and given back afterwards, as are the
 * registers: after it no copy of what live calls in `work` moved is left outside of unit, memories and what `work`
 * itself stored elsewhere. 0, or TG18_NO_STACK: then `work` was not called. Its frames and all that it calls have
 * TG18_SCRUBBED_BYTES of stack in all. Signals to this thread wait until it is done, so that a fault in `work` ends the
 * process and no handler is called. `work` must return: no longjmp, no exception out of it. Not proved, but tested
 * (host/tests/live_key.c). */
uint32_t tg18_scrubbed(void (*work)(void *argument), void *argument);

#ifdef __cplusplus
}
#endif

#endif
