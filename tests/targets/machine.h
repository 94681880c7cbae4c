/* What cases.c needs of the machine that it runs on: hosted.c, or semihosting.c with arm.c or riscv.c. */
#ifndef MACHINE_H
#define MACHINE_H

#include <stddef.h>
#include <stdint.h>

enum { FAILED = -1 };

/* A file to read or to write, FAILED if there is none. */
int machine_open(const char *name, int to_write);
/* The number of bytes read; 0 at the end of the file. */
size_t machine_read(int file, void *bytes, size_t len);
/* 0, or FAILED. */
int machine_write(int file, const void *bytes, size_t len);
/* To standard error. */
void machine_say(const char *text);

/* The program: names of the case file, of the output and of the file for the stack. Its exit status. */
int cases(const char *input, const char *output, const char *stack);

/* The stack pointer of the function that it is in. */
static inline __attribute__((always_inline)) uintptr_t stack_pointer(void)
{
    uintptr_t at;
#if defined __x86_64__
    __asm__ volatile("mov %%rsp, %0" : "=r"(at));
#elif defined __riscv
    __asm__ volatile("mv %0, sp" : "=r"(at));
#else
    __asm__ volatile("mov %0, sp" : "=r"(at));
#endif
    return at;
}

#endif
