// Units in threads: each with its own unit and memories leaves what it leaves alone, byte for byte.
#include "lent.h"
#include "live_steps.h"
#include "scripts.h"
#include "tg18.h"
#include <pthread.h>
#include <stdio.h>
#include <stdlib.h>
#include <string.h>

enum { THREADS = 8, SCRIPTS = 150, SESSIONS = 10, STEPS = 60, SCRIPT_ROOM = 16384, OUT_ROOM = 4096 };

struct play {
    struct lent state, out, script, rgb, session;
    struct unit unit;
    struct tg18_memories memories;
    uint64_t seed;
    struct script now;
    uint8_t *answers;
    unsigned refused;
};

static struct play alone[THREADS], beside[THREADS];
static int waiting;

static void play_made(struct play *play, uint64_t seed) {
    play->state = lend(sizeof(struct tg18_unit), BEFORE_GUARD);
    play->out = lend(OUT_ROOM * SCRIPTS, AFTER_GUARD);
    play->script = lend(SCRIPT_ROOM, AFTER_GUARD);
    play->rgb = lend(TG18_SCREEN_BYTES, AFTER_GUARD);
    play->session = lend(TG18_SAVE_MOST, AFTER_GUARD);
    play->unit = unit_made();
    play->memories = memories_of(&play->unit);
    play->seed = seed;
    for (int i = 0; i < MEMORIES; i++) {
        fill_any(&play->unit.memory[i], 10 * seed + (uint64_t)i);
    }
}

static void continued(void *argument) {
    struct play *play = argument;
    size_t bytes = script_length(&play->now);
    struct tg18_unit *state = (struct tg18_unit *)play->state.at;
    uint32_t refusal = tg18_continue_script(state, &play->memories, play->script.at, bytes, play->answers, OUT_ROOM);
    play->refused += refusal != TG18_DONE;
}

// Saved, and resumed where it stands.
static void carried_on(struct play *play) {
    struct tg18_unit *state = (struct tg18_unit *)play->state.at;
    uint64_t written = 0;
    play->refused += tg18_save(state, &play->memories, play->session.at, play->session.bytes, &written) != TG18_DONE;
    play->refused += tg18_resume(state, &play->memories, play->session.at, (size_t)written) != TG18_DONE;
}

// A third of the scripts by live calls, a third by tg18_continue_script, a third by that and scrubbed.
static void played(struct play *play) {
    struct tg18_unit *state = (struct tg18_unit *)play->state.at;
    tg18_fresh(state);
    for (unsigned i = 0; i < SCRIPTS; i++) {
        uint64_t chance = play->seed * 1000 + i;
        play->now = script_at(play->script.at);
        play->answers = play->out.at + OUT_ROOM * i;
        script_any(&play->now, &chance, STEPS);
        if (i % 3 == 0) {
            do_script(state, &play->memories, play->script.at, play->answers, play->rgb.at);
        } else if (i % 3 == 1) {
            continued(play);
        } else {
            play->refused += tg18_scrubbed(continued, play) != TG18_DONE;
        }
        if (i % (SCRIPTS / SESSIONS) == 0) {
            carried_on(play);
        }
    }
}

// All begin at once.
static void *thread(void *argument) {
    __atomic_fetch_sub(&waiting, 1, __ATOMIC_ACQ_REL);
    while (__atomic_load_n(&waiting, __ATOMIC_ACQUIRE) > 0) {
    }
    played(argument);
    return NULL;
}

static const char *difference(const struct play *a, const struct play *b) {
    if (a->refused != 0 || b->refused != 0) {
        return "refusal";
    }
    for (int i = 0; i < MEMORIES; i++) {
        if (memcmp(a->unit.memory[i].at, b->unit.memory[i].at, memory_bytes[i]) != 0) {
            return memory_names[i];
        }
    }
    if (memcmp(a->state.at, b->state.at, a->state.bytes) != 0) {
        return "unit";
    }
    return memcmp(a->out.at, b->out.at, a->out.bytes) != 0 ? "answer" : NULL;
}

int main(void) {
    pthread_t threads[THREADS];
    waiting = THREADS;
    for (int i = 0; i < THREADS; i++) {
        play_made(&alone[i], (uint64_t)i + 1);
        play_made(&beside[i], (uint64_t)i + 1);
        played(&alone[i]);
    }
    for (int i = 0; i < THREADS; i++) {
        if (pthread_create(&threads[i], NULL, thread, &beside[i]) != 0) {
            printf("FAILED live: no thread %d\n", i);
            exit(1);
        }
    }
    int good = 1;
    for (int i = 0; i < THREADS; i++) {
        pthread_join(threads[i], NULL);
        const char *what = difference(&alone[i], &beside[i]);
        if (what != NULL) {
            printf("FAILED live: thread %d leaves another %s than alone\n", i, what);
            good = 0;
        }
    }
    if (good) {
        printf("ok live: %d units in as many threads, %d scripts and %d sessions each, leave what each leaves alone\n",
               THREADS, SCRIPTS, SESSIONS);
    }
    return !good;
}
