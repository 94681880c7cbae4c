/*
 * Start, faults and semihosting of a Cortex-M; QEMU's mps2-an385 is a Cortex-M3. With TRAP_UNALIGNED unaligned accesses fault, as they do
 * on a Cortex-M0+.
 */
#include "semihosting.h"

void reset(void);
extern uint32_t variables_begin[], variables_end[], stack_end[];

#define REGISTER(address) (*(volatile uint32_t *)(address))
#define CFSR REGISTER(0xe000ed28u)
#define CCR REGISTER(0xe000ed14u)
enum { UNALIGN_TRP = 1 << 3 };

uintptr_t semihosting(uintptr_t operation, const void *words)
{
    register uintptr_t r0 __asm__("r0") = operation;
    register const void *r1 __asm__("r1") = words;
    __asm__ volatile("bkpt 0xab" : "+r"(r0) : "r"(r1) : "memory");
    return r0;
}

void reset(void)
{
    for (uint32_t *word = variables_begin; word < variables_end; word++)
        *word = 0;
#ifdef TRAP_UNALIGNED
    CCR |= UNALIGN_TRP;
    __asm__ volatile("dsb\n\tisb" ::: "memory");
#endif
    start();
}

/* The word at 24 of what an exception puts on the stack is where it happened. */
__attribute__((used)) static void told(const uint32_t *frame)
{
    fault("CFSR", CFSR, frame[6]);
}

__attribute__((naked)) static void exception(void)
{
    __asm__ volatile("mov r0, sp\n\tbl told");
}

__attribute__((section(".vectors"), used)) static void (*const vectors[16])(void) = {
    (void (*)(void))stack_end, reset,     exception, exception, exception, exception, exception, exception,
    exception,                 exception, exception, exception, exception, exception, exception, exception,
};
