/* Start, faults and semihosting of RV32; QEMU's virt begins at the first address of its RAM. */
#include "semihosting.h"

extern uint32_t variables_begin[], variables_end[];

uintptr_t semihosting(uintptr_t operation, const void *words)
{
    register uintptr_t a0 __asm__("a0") = operation;
    register const void *a1 __asm__("a1") = words;
    /* these three in a row are the request, uncompressed and on one page */
    __asm__ volatile(".balign 16\n\t"
                     ".option push\n\t.option norvc\n\t"
                     "slli x0, x0, 0x1f\n\tebreak\n\tsrai x0, x0, 7\n\t"
                     ".option pop"
                     : "+r"(a0) : "r"(a1) : "memory");
    return a0;
}

__attribute__((used)) static void told(uint32_t cause, uint32_t at)
{
    fault("mcause", cause, at);
}

__attribute__((used)) static void reset(void)
{
    for (uint32_t *word = variables_begin; word < variables_end; word++)
        *word = 0;
    start();
}

__asm__(".section .vectors, \"ax\"\n\t"
        ".option push\n\t.option arch, +zicsr\n\t"
        ".globl entry\n"
        "entry:\n\t"
        "la sp, stack_end\n\t"
        "la t0, exception\n\t"
        "csrw mtvec, t0\n\t"
        "j reset\n\t"
        ".balign 4\n"
        "exception:\n\t"
        "la sp, stack_end\n\t"
        "csrr a0, mcause\n\t"
        "csrr a1, mepc\n\t"
        "j told\n\t"
        ".option pop\n\t"
        ".text");
