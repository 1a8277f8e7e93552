// Sessions saved and resumed inside tg18_scrubbed. It stands apart from scrubbed.c because it needs live.c. This code
// only passes pointers; it never reads a byte of a slice.
#include "tg18.h"

struct save_call {
    const struct tg18_unit *unit;
    const struct tg18_memories *memories;
    uint8_t *out;
    size_t out_len;
    uint64_t *written;
    uint32_t refusal;
};

static void save(void *argument) {
    struct save_call *call = argument;
    call->refusal = tg18_save(call->unit, call->memories, call->out, call->out_len, call->written);
}

uint32_t tg18_save_scrubbed(const struct tg18_unit *unit, const struct tg18_memories *memories, uint8_t *out,
                            size_t out_len, uint64_t *written) {
    struct save_call call = {unit, memories, out, out_len, written, TG18_DONE};
    *written = 0; // for where there is no stack
    uint32_t refusal = tg18_scrubbed(save, &call);
    return refusal == TG18_DONE ? call.refusal : refusal;
}

struct resume_call {
    struct tg18_unit *unit;
    const struct tg18_memories *memories;
    const uint8_t *saved;
    size_t saved_len;
    uint32_t refusal;
};

static void resume(void *argument) {
    struct resume_call *call = argument;
    call->refusal = tg18_resume(call->unit, call->memories, call->saved, call->saved_len);
}

uint32_t tg18_resume_scrubbed(struct tg18_unit *unit, const struct tg18_memories *memories, const uint8_t *saved,
                              size_t saved_len) {
    struct resume_call call = {unit, memories, saved, saved_len, TG18_DONE};
    uint32_t refusal = tg18_scrubbed(resume, &call);
    return refusal == TG18_DONE ? call.refusal : refusal;
}
