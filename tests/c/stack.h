/* A call on a stack of its own. */
#ifndef STACK_H
#define STACK_H

#include <stdint.h>
#include <stdlib.h>
#include <sys/mman.h>

/* Calls f on a stack of so many bytes, below which nothing can be read or written. */
static void on_stack(size_t length, void (*f)(void))
{
    enum { BELOW = 1 << 20 };
    uint8_t *p = mmap(NULL, BELOW + length, PROT_READ | PROT_WRITE, MAP_PRIVATE | MAP_ANONYMOUS, -1, 0);
    if (p == MAP_FAILED || mprotect(p, BELOW, PROT_NONE) != 0)
        abort();
    __asm__ volatile("movq %%rsp, %%rbx\n\tmovq %0, %%rsp\n\tcall *%1\n\tmovq %%rbx, %%rsp"
                     :
                     : "r"(p + BELOW + length), "r"(f)
                     : "rax", "rbx", "rcx", "rdx", "rsi", "rdi", "r8", "r9", "r10", "r11", "xmm0", "xmm1", "xmm2", "xmm3", "xmm4", "xmm5", "xmm6", "xmm7", "xmm8", "xmm9", "xmm10", "xmm11",
                       "xmm12", "xmm13", "xmm14", "xmm15", "memory", "cc");
    munmap(p, BELOW + length);
}

#endif
