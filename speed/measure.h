/* How the programs here read time and stack. */
#ifndef SPEED_MEASURE_H
#define SPEED_MEASURE_H

#include <stdint.h>
#include <string.h>

#define STACK 131072
#define PAINT 0xa5

/* The processor's time stamp counter, with nothing before it still under way and nothing after it begun. */
static inline uint64_t now(void)
{
    __builtin_ia32_lfence();
    uint64_t t = __builtin_ia32_rdtsc();
    __builtin_ia32_lfence();
    return t;
}

/* What a call writes below its caller, on a stack of its own that was painted before. */
static inline size_t depth(void (*call)(void))
{
    static uint8_t stack[STACK] __attribute__((aligned(64)));
    memset(stack, PAINT, sizeof stack);
    __asm__ volatile("movq %%rsp, %%rbx\n\tmovq %0, %%rsp\n\tcall *%1\n\tmovq %%rbx, %%rsp"
                     :
                     : "r"(stack + sizeof stack), "r"(call)
                     : "rbx", "rax", "rcx", "rdx", "rsi", "rdi", "r8", "r9", "r10", "r11", "cc", "memory",
                       "xmm0", "xmm1", "xmm2", "xmm3", "xmm4", "xmm5", "xmm6", "xmm7",
                       "xmm8", "xmm9", "xmm10", "xmm11", "xmm12", "xmm13", "xmm14", "xmm15");
    size_t i = 0;
    while (i < sizeof stack && stack[i] == PAINT)
        i++;
    return sizeof stack - i;
}

#endif
