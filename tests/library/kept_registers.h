/*
 * Registers that a call has to keep, by the ABI of the target: System V's for x86-64, AAPCS64 for 64-bit ARM. Who
 * includes this is compiled with -ffixed- for each of them, so that nothing else uses them: they are filled before a
 * call of the library and looked at after it, and the caller's own code saves none in between.
 */
#ifndef KEPT_REGISTERS_H
#define KEPT_REGISTERS_H

#include <stdint.h>

/* What register number i is filled with. */
#define FILLING(i) (0x0101010101010101 * ((uint64_t)(i) + 0x51))

#if defined __x86_64__
/*
 * After the registers come what SSE and x87 are set to, whether strings go downward, and which x87 registers, which are
 * those of MMX, are in use.
 */
static const char *const kept_registers[] = {"rbx", "rbp", "r12", "r13", "r14", "r15", "MXCSR", "the x87 control word",
                                             "the direction flag", "the x87 registers"};
enum { KEPT_REGISTERS = 10 };

static inline __attribute__((always_inline)) void fill_registers(uint64_t filled[KEPT_REGISTERS])
{
    /* Unusual settings: round down, flush to zero; 53 bits. */
    const uint32_t sse = 0xbf80;
    const uint16_t x87 = 0x067f;
    int i;

    for (i = 0; i < 6; i++)
        filled[i] = FILLING(i);
    filled[6] = sse;
    filled[7] = x87;
    filled[8] = 0;
    filled[9] = 0xffff;
    __asm__ volatile("mov (%0), %%rbx\nmov 8(%0), %%rbp\nmov 16(%0), %%r12\nmov 24(%0), %%r13\n"
                     "mov 32(%0), %%r14\nmov 40(%0), %%r15\nldmxcsr %1\nfldcw %2"
                     :
                     : "r"(filled), "m"(sse), "m"(x87)
                     : "memory");
}

static inline __attribute__((always_inline)) void look_at_registers(uint64_t seen[KEPT_REGISTERS])
{
    const uint32_t usual_sse = 0x1f80;
    uint32_t sse = 0, environment[7];
    uint64_t flags = 0;

    __asm__ volatile("mov %%rbx, (%0)\nmov %%rbp, 8(%0)\nmov %%r12, 16(%0)\nmov %%r13, 24(%0)\n"
                     "mov %%r14, 32(%0)\nmov %%r15, 40(%0)"
                     :
                     : "r"(seen)
                     : "memory");
    __asm__ volatile("pushfq\npop %0\nstmxcsr %1\nfnstenv %2\nfninit\nldmxcsr %3"
                     : "=r"(flags), "=m"(sse), "=m"(environment)
                     : "m"(usual_sse));
    seen[6] = sse & 0xffc0;
    seen[7] = environment[0] & 0xffff;
    seen[8] = flags >> 10 & 1;
    seen[9] = environment[2] & 0xffff;
}
#elif defined __aarch64__
/* Of d8 to d15, the lower halves of v8 to v15, and after the registers how floating point is set. */
static const char *const kept_registers[] = {"x19", "x20", "x21", "x22", "x23", "x24", "x25", "x26", "x27", "x28",
                                             "x29", "d8", "d9", "d10", "d11", "d12", "d13", "d14", "d15", "FPCR"};
enum { KEPT_REGISTERS = 20 };

static inline __attribute__((always_inline)) void fill_registers(uint64_t filled[KEPT_REGISTERS])
{
    int i;

    for (i = 0; i < 19; i++)
        filled[i] = FILLING(i);
    /* Unusual settings: round down, flush to zero. */
    filled[19] = 0x1800000;
    __asm__ volatile("ldp x19, x20, [%0]\nldp x21, x22, [%0, 16]\nldp x23, x24, [%0, 32]\nldp x25, x26, [%0, 48]\n"
                     "ldp x27, x28, [%0, 64]\nldr x29, [%0, 80]\nldp d8, d9, [%0, 88]\nldp d10, d11, [%0, 104]\n"
                     "ldp d12, d13, [%0, 120]\nldp d14, d15, [%0, 136]\nmsr fpcr, %1"
                     :
                     : "r"(filled), "r"(filled[19])
                     : "memory");
}

static inline __attribute__((always_inline)) void look_at_registers(uint64_t seen[KEPT_REGISTERS])
{
    uint64_t fpcr = 0;

    __asm__ volatile("stp x19, x20, [%0]\nstp x21, x22, [%0, 16]\nstp x23, x24, [%0, 32]\nstp x25, x26, [%0, 48]\n"
                     "stp x27, x28, [%0, 64]\nstr x29, [%0, 80]\nstp d8, d9, [%0, 88]\nstp d10, d11, [%0, 104]\n"
                     "stp d12, d13, [%0, 120]\nstp d14, d15, [%0, 136]"
                     :
                     : "r"(seen)
                     : "memory");
    __asm__ volatile("mrs %0, fpcr\nmsr fpcr, xzr" : "=r"(fpcr));
    seen[19] = fpcr;
}
#endif

#endif
