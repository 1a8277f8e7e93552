// tg18_scrubbed: work on a stack of its own, which is cleared afterwards with the registers. The port leaves bytes that
// it moved on its stack, and those of a key can be among them (docs/DECISIONS.md, 6). This code itself only passes
// pointers; it never reads a byte of a slice.
#define _GNU_SOURCE
#include "scrubbed.h"
#include "tg18.h"
#include <sys/mman.h>
#include <sys/syscall.h>
#include <unistd.h>

static void cpuid(uint32_t leaf, uint32_t words[4]) {
    __asm__ volatile("cpuid" : "=a"(words[0]), "=b"(words[1]), "=c"(words[2]), "=d"(words[3]) : "a"(leaf), "c"(0));
}

// The processor has them, and the system keeps them for this process: else an instruction that names them is a fault.
enum tg18_vectors tg18_vectors_here(void) {
    uint32_t words[4], kept, above;
    cpuid(1, words);
    if ((words[2] & 0x18000000) != 0x18000000) { // OSXSAVE and AVX
        return TG18_XMM;
    }
    __asm__ volatile("xgetbv" : "=a"(kept), "=d"(above) : "c"(0));
    if ((kept & 0x06) != 0x06) {
        return TG18_XMM;
    }
    cpuid(0, words);
    if (words[0] < 7 || (kept & 0xe6) != 0xe6) {
        return TG18_YMM;
    }
    cpuid(7, words);
    return words[1] & 0x10000 ? TG18_ZMM : TG18_YMM; // AVX-512F
}

// NULL if there is no memory. Locking and the two kinds of advice may fail; then the stack could be in swap or a core
// file meanwhile.
static uint8_t *stack_made(void) {
    uint8_t *guard = mmap(NULL, TG18_GUARD_BYTES + TG18_STACK_BYTES, PROT_NONE, MAP_PRIVATE | MAP_ANONYMOUS, -1, 0);
    if (guard == MAP_FAILED) {
        return NULL;
    }
    uint8_t *stack = guard + TG18_GUARD_BYTES;
    if (mprotect(stack, TG18_STACK_BYTES, PROT_READ | PROT_WRITE) != 0) {
        munmap(guard, TG18_GUARD_BYTES + TG18_STACK_BYTES);
        return NULL;
    }
    madvise(stack, TG18_STACK_BYTES, MADV_DONTDUMP);
    madvise(stack, TG18_STACK_BYTES, MADV_DONTFORK); // another thread may fork meanwhile
    mlock(stack, TG18_STACK_BYTES);
    return stack;
}

uint32_t tg18_scrubbed(void (*work)(void *argument), void *argument) {
    uint8_t *stack = stack_made();
    if (stack == NULL) {
        return TG18_NO_STACK;
    }
    // A signal's frame holds all registers, and a handler may have a stack of its own for it. The system call itself
    // is taken because the C library's function leaves two signals out. SIG_SETMASK is 2; a mask has eight bytes.
    uint64_t all = ~(uint64_t)0, before = 0;
    syscall(SYS_rt_sigprocmask, 2, &all, &before, sizeof all);
    tg18_call_on(work, argument, stack + TG18_STACK_BYTES, tg18_vectors_here());
    tg18_clear(stack, TG18_STACK_BYTES);
    syscall(SYS_rt_sigprocmask, 2, &before, NULL, sizeof before);
    munmap(stack - TG18_GUARD_BYTES, TG18_GUARD_BYTES + TG18_STACK_BYTES);
    return TG18_DONE;
}

struct script_call {
    struct tg18_memories memories;
    const uint8_t *script;
    size_t script_len;
    uint8_t *out;
    size_t out_len;
    uint32_t refusal;
};

static void run_script(void *argument) {
    struct script_call *call = argument;
    const struct tg18_memories *m = &call->memories;
    call->refusal = tg18_run_script(m->ram, m->ram_len, m->sram, m->sram_len, m->gpio, m->gpio_len, m->framebuffer,
                                    m->framebuffer_len, call->script, call->script_len, call->out, call->out_len);
}

uint32_t tg18_run_script_scrubbed(uint8_t *ram, size_t ram_len, uint8_t *sram, size_t sram_len, uint8_t *gpio,
                                  size_t gpio_len, uint8_t *framebuffer, size_t framebuffer_len, const uint8_t *script,
                                  size_t script_len, uint8_t *out, size_t out_len) {
    struct script_call call = {{ram, ram_len, sram, sram_len, gpio, gpio_len, framebuffer, framebuffer_len},
                               script, script_len, out, out_len, TG18_DONE};
    uint32_t refusal = tg18_scrubbed(run_script, &call);
    return refusal == TG18_DONE ? call.refusal : refusal;
}
