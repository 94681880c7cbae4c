/* What semihosting.c needs of arm.c and riscv.c, and what they need of it. */
#ifndef SEMIHOSTING_H
#define SEMIHOSTING_H

#include <stdint.h>

/* A request to the debugger, here QEMU. */
uintptr_t semihosting(uintptr_t operation, const void *words);

/* After a reset, with the stack and the variables set up. */
void start(void);

/* A fault: what it is, a number that says more, and where. Ends the run with status 1. */
void fault(const char *what, uint32_t cause, uint32_t at);

#endif
