// The program behind ./tg18: scripts on standard input, raw answers on standard output.
//     runner [load NAME=FILE]... [resume NUMBER] [dump NAME=FILE]... [screen FILE] [save NUMBER]
//     runner show NUMBER
// The input is a chain of binary scripts, each behind its length in eight bytes, little-endian. They run one after the
// other on one unit, which is fresh or resumed before the first; the answers of each stand behind those of the one
// before. A session is read and written through a file that is open already, by its number: its bytes go nowhere else.
// Always scrubbed; unit, memories, script, answers and session are cleared before it ends. A status of 64 and above is
// the refusal of a script or, 14, of a session, 64 off; scripts before it have run then, and those behind it have not.
#define _GNU_SOURCE
#include "scrubbed.h"
#include "tg18.h"
#include <errno.h>
#include <fcntl.h>
#include <stdio.h>
#include <stdlib.h>
#include <string.h>
#include <sys/mman.h>
#include <unistd.h>

enum status { RAN = 0, BAD_USAGE = 2, BAD_FILE = 3, NO_MEMORY = 4, REFUSED = 64 };

// One byte more than a script can have: a longer one is refused by the port itself.
enum { SCRIPT_ROOM = 8 + TG18_PRESS_BYTES * TG18_MOST_PRESSES + TG18_STEP_BYTES * TG18_MOST_STEPS + 1 };
enum { OUT_ROOM = 4 + TG18_ANSWER_BYTES * (TG18_MOST_PRESSES + TG18_MOST_STEPS) };
// So with a session.
enum { SESSION_ROOM = TG18_SAVE_MOST + 1 };

enum place { RAM, SRAM, GPIO, FRAMEBUFFER, UNIT, SCRIPT, OUT, COLOURS, SESSION, PLACES };

static struct {
    const char *name;
    size_t bytes;
    uint8_t *at;
} places[PLACES] = {
    {"ram", TG18_RAM_BYTES, NULL},
    {"sram", TG18_SRAM_BYTES, NULL},
    {"gpio", TG18_GPIO_BYTES, NULL},
    {"framebuffer", TG18_FRAMEBUFFER_BYTES, NULL},
    {"unit", sizeof(struct tg18_unit), NULL},
    {"script", SCRIPT_ROOM, NULL},
    {"out", OUT_ROOM, NULL},
    {"colours", TG18_SCREEN_BYTES, NULL},
    {"session", SESSION_ROOM, NULL},
};

static int complain(enum status status, const char *what, const char *why) {
    fprintf(stderr, "%s: %s\n", what, why);
    return status;
}

// The first so many.
static int map_places(int count) {
    for (int i = 0; i < count; i++) {
        void *at = mmap(NULL, places[i].bytes, PROT_READ | PROT_WRITE, MAP_PRIVATE | MAP_ANONYMOUS, -1, 0);
        if (at == MAP_FAILED) {
            return complain(NO_MEMORY, places[i].name, strerror(errno));
        }
        madvise(at, places[i].bytes, MADV_DONTDUMP);
        mlock(at, places[i].bytes); // may fail: then it can be in swap
        places[i].at = at;
    }
    return RAN;
}

static void clear_places(void) {
    for (int i = 0; i < PLACES; i++) {
        if (places[i].at != NULL) {
            tg18_clear(places[i].at, places[i].bytes);
        }
    }
}

// How many bytes there were, at most `room`; -1 if reading fails.
static ssize_t fill(int file, uint8_t *at, size_t room) {
    size_t have = 0;
    while (have < room) {
        ssize_t got = read(file, at + have, room - have);
        if (got == 0) {
            break;
        }
        if (got > 0) {
            have += (size_t)got;
        } else if (errno != EINTR) {
            return -1;
        }
    }
    return (ssize_t)have;
}

static int put(int file, const uint8_t *at, size_t bytes) {
    while (bytes > 0) {
        ssize_t put = write(file, at, bytes);
        if (put < 0 && errno != EINTR) {
            return -1;
        }
        if (put > 0) {
            at += put;
            bytes -= (size_t)put;
        }
    }
    return 0;
}

static int load(enum place place, const char *path) {
    int file = open(path, O_RDONLY | O_CLOEXEC);
    if (file < 0) {
        return complain(BAD_FILE, path, strerror(errno));
    }
    ssize_t have = fill(file, places[place].at, places[place].bytes);
    uint8_t more;
    int status = RAN;
    if (have < 0) {
        status = complain(BAD_FILE, path, strerror(errno));
    } else if ((size_t)have == places[place].bytes && fill(file, &more, 1) != 0) {
        status = complain(BAD_FILE, path, "longer than the memory that it is for");
    }
    close(file);
    return status;
}

// Readable by its owner alone: a memory can hold a key.
static int store(enum place place, const char *path) {
    int file = open(path, O_WRONLY | O_CREAT | O_TRUNC | O_CLOEXEC, 0600);
    if (file < 0) {
        return complain(BAD_FILE, path, strerror(errno));
    }
    int failed = put(file, places[place].at, places[place].bytes);
    if (close(file) != 0 || failed) {
        return complain(BAD_FILE, path, strerror(errno));
    }
    return RAN;
}

// ---- the unit, always scrubbed

struct call {
    struct tg18_unit *unit;
    struct tg18_memories memories;
    size_t script_bytes;
    uint32_t refusal;
};

static struct call call_made(size_t script_bytes) {
    return (struct call){(struct tg18_unit *)places[UNIT].at,
                         {places[RAM].at, TG18_RAM_BYTES, places[SRAM].at, TG18_SRAM_BYTES, places[GPIO].at,
                          TG18_GPIO_BYTES, places[FRAMEBUFFER].at, TG18_FRAMEBUFFER_BYTES},
                         script_bytes, TG18_DONE};
}

static void begin(void *argument) {
    struct call *call = argument;
    tg18_fresh(call->unit);
}

static void go_on(void *argument) {
    struct call *call = argument;
    call->refusal = tg18_continue_script(call->unit, &call->memories, places[SCRIPT].at, call->script_bytes,
                                         places[OUT].at, OUT_ROOM);
}

static void look(void *argument) {
    struct call *call = argument;
    call->refusal = tg18_screen(&call->memories, places[COLOURS].at, TG18_SCREEN_BYTES);
}

static uint32_t scrubbed(void (*work)(void *), size_t script_bytes) {
    struct call call = call_made(script_bytes);
    uint32_t refusal = tg18_scrubbed(work, &call);
    return refusal == TG18_DONE ? call.refusal : refusal;
}

static int ended_by(uint32_t refusal) {
    if (refusal == TG18_NO_STACK) {
        return complain(NO_MEMORY, "stack", "no memory");
    }
    return refusal == TG18_DONE ? RAN : REFUSED + (int)refusal;
}

// ---- sessions

static uint64_t number_in(const uint8_t *at, int bytes) {
    uint64_t number = 0;
    for (int i = 0; i < bytes; i++) {
        number |= (uint64_t)at[i] << (8 * i);
    }
    return number;
}

static int resume(const char *number) {
    struct call call = call_made(0);
    ssize_t have = fill((int)strtoul(number, NULL, 10), places[SESSION].at, SESSION_ROOM);
    if (have < 0) {
        return complain(BAD_FILE, "the session", strerror(errno));
    }
    return ended_by(tg18_resume_scrubbed(call.unit, &call.memories, places[SESSION].at, (size_t)have));
}

static int save(const char *number) {
    struct call call = call_made(0);
    int file = (int)strtoul(number, NULL, 10);
    uint64_t written = 0;
    int status = ended_by(tg18_save_scrubbed(call.unit, &call.memories, places[SESSION].at, SESSION_ROOM, &written));
    if (status == RAN && (put(file, places[SESSION].at, (size_t)written) != 0 || fsync(file) != 0)) {
        return complain(BAD_FILE, "the later session", strerror(errno));
    }
    return status;
}

// What the port says of the resumed unit, eight bytes each: interrupt, keys that are held, second of the day, the next
// event's time.
struct seen {
    uint64_t interrupt, keys, day;
    double next;
};

static void see(void *argument) {
    struct call *call = argument;
    struct seen *seen = (struct seen *)places[OUT].at;
    seen->interrupt = tg18_pending_irq(call->unit);
    seen->keys = tg18_keys_held(call->unit);
    seen->day = (uint64_t)tg18_tod(call->unit);
    tg18_next_event(call->unit, &call->memories, &seen->next);
}

// docs/SESSIONS.md has these places. Those of the second list are counted from where the flags stand.
enum { WORDS = 58, SLOTS = 62, OTHERS = 366 };
enum { HALF = 6 + 37, RTC_SHOWN = 127, RTC_BYTES = 4 + 256, FLASH = 407, PRESSES = 719 };
enum { ANSWER = FLASH + 14, HEADER = FLASH + 16, HEADER_BYTES = 3, PAGE = FLASH + 24, PAGE_BYTES = 256 };
// RTC_DATA, SPIFC_SEND and LCD_DATA: the last byte that went to the clock chip, the flash and the panel
static const int sent[] = {54, 62, 72};

// A good session's bytes before the memories, without what is not to be shown: the last bytes sent, the clock chip's
// memory and what it shows, half a pixel that waits, and of the flash the answer, the bytes behind the command and the
// page. The answer is how many there are.
static size_t shown(uint8_t *session) {
    for (size_t i = 0; i < sizeof sent / sizeof *sent; i++) {
        tg18_clear(session + SLOTS + 4 * sent[i], 4);
    }
    uint8_t *flags = session + OTHERS + 8 * number_in(session + WORDS, 4);
    uint64_t presses = number_in(flags + PRESSES, 4);
    uint8_t *events = flags + PRESSES + 4 + 9 * presses;
    tg18_clear(flags + RTC_SHOWN, RTC_BYTES);
    tg18_clear(flags + ANSWER, 1);
    tg18_clear(flags + HEADER, HEADER_BYTES);
    tg18_clear(flags + PAGE, PAGE_BYTES);
    tg18_clear(flags + HALF, 1);
    return (size_t)(events - session) + 4 + 24 * (size_t)number_in(events, 4);
}

// Whether it is good is for the port to say, which resumes it.
static int show(const char *number) {
    int status = resume(number);
    status = status == RAN ? ended_by(scrubbed(see, 0)) : status;
    if (status != RAN) {
        return status;
    }
    size_t bytes = shown(places[SESSION].at);
    int failed = put(1, places[OUT].at, sizeof(struct seen)) != 0 || put(1, places[SESSION].at, bytes) != 0;
    return failed ? complain(BAD_FILE, "standard output", strerror(errno)) : RAN;
}

// ---- words

// NAME=FILE: the file, and the memory of that name; NULL if it is none.
static const char *named(const char *word, enum place *place) {
    for (int i = RAM; i <= FRAMEBUFFER; i++) {
        size_t bytes = strlen(places[i].name);
        if (strncmp(word, places[i].name, bytes) == 0 && word[bytes] == '=') {
            *place = (enum place)i;
            return word + bytes + 1;
        }
    }
    return NULL;
}

static int load_named(const char *word) {
    enum place place = RAM;
    const char *path = named(word, &place);
    return load(place, path);
}

static int store_named(const char *word) {
    enum place place = RAM;
    const char *path = named(word, &place);
    return store(place, path);
}

static int screen(const char *path) {
    int status = ended_by(scrubbed(look, 0));
    return status == RAN ? store(COLOURS, path) : status;
}

static int is_named(const char *word) {
    enum place place;
    return named(word, &place) != NULL;
}

static int is_any(const char *word) {
    (void)word;
    return 1;
}

static int is_number(const char *word) {
    size_t digits = 0;
    while (word[digits] >= '0' && word[digits] <= '9') {
        digits++;
    }
    return digits > 0 && digits < 9 && word[digits] == '\0';
}

enum verb { LOAD, RESUME, DUMP, SCREEN, SAVE, SHOW, VERBS };

static const struct {
    const char *name;
    int (*is_right)(const char *word);
    int (*act)(const char *word);
} verbs[VERBS] = {
    {"load", is_named, load_named}, {"resume", is_number, resume}, {"dump", is_named, store_named},
    {"screen", is_any, screen},     {"save", is_number, save},     {"show", is_number, show},
};

// How often each verb is there; all words are looked at.
static int count_verbs(int count, char **words, int *times) {
    for (int i = 1; i < count; i += 2) {
        int verb = LOAD;
        while (verb < VERBS && strcmp(words[i], verbs[verb].name) != 0) {
            verb++;
        }
        if (verb == VERBS || i + 1 == count || !verbs[verb].is_right(words[i + 1])) {
            return complain(BAD_USAGE, words[i], "runner.c says which words there are");
        }
        times[verb]++;
    }
    return RAN;
}

// Does what the words with this verb ask.
static int act(int count, char **words, enum verb verb) {
    int status = RAN;
    for (int i = 1; i < count && status == RAN; i += 2) {
        status = strcmp(words[i], verbs[verb].name) == 0 ? verbs[verb].act(words[i + 1]) : RAN;
    }
    return status;
}

// ---- the chain

// As many bytes of standard input, all of them.
static int take(uint8_t *at, size_t bytes) {
    ssize_t have = fill(0, at, bytes);
    if (have < 0 || (size_t)have < bytes) {
        return complain(BAD_FILE, "standard input", have < 0 ? strerror(errno) : "ends within a script");
    }
    return RAN;
}

static int answer_one(uint64_t length) {
    size_t bytes = length < SCRIPT_ROOM ? (size_t)length : SCRIPT_ROOM;
    int status = take(places[SCRIPT].at, bytes);
    status = status == RAN ? ended_by(scrubbed(go_on, bytes)) : status;
    if (status != RAN) {
        return status;
    }
    const uint8_t *out = places[OUT].at;
    size_t answers = TG18_OUT_BYTES(number_in(out, 4), 0);
    return put(1, out, answers) == 0 ? RAN : complain(BAD_FILE, "standard output", strerror(errno));
}

static int answer(void) {
    uint8_t length[8];
    int status = RAN;
    ssize_t have = 0;
    while (status == RAN && (have = fill(0, length, 1)) > 0) {
        status = take(length + 1, sizeof length - 1);
        status = status == RAN ? answer_one(number_in(length, sizeof length)) : status;
    }
    return have < 0 ? complain(BAD_FILE, "standard input", strerror(errno)) : status;
}

// The session is saved last: what fails before it leaves none.
static int run(int count, char **words) {
    int status = act(count, words, LOAD);
    status = status == RAN ? ended_by(scrubbed(begin, 0)) : status;
    status = status == RAN ? act(count, words, RESUME) : status;
    status = status == RAN ? answer() : status;
    status = status == RAN ? act(count, words, DUMP) : status;
    status = status == RAN ? act(count, words, SCREEN) : status;
    return status == RAN ? act(count, words, SAVE) : status;
}

int main(int count, char **words) {
    int times[VERBS] = {0};
    int status = count_verbs(count, words, times);
    int is_session = times[RESUME] + times[SAVE] + times[SHOW] > 0;
    status = status == RAN ? map_places(is_session ? PLACES : SESSION) : status;
    status = status != RAN ? status : times[SHOW] > 0 ? act(count, words, SHOW) : run(count, words);
    clear_places();
    return status;
}
