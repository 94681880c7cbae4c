/*
 * Vector table and start of a Cortex-M3, and how much of the stack was used. The names of addresses are board.ld's. CCR.UNALIGN_TRP stays
 * 0, as after reset: the library's code has unaligned loads and stores.
 */
#include <stdint.h>

extern uint32_t stack_bottom[], stack_top[], data_in_flash[], data_begin[], data_end[], bss_begin[], bss_end[];

int main(void);
uint32_t stack_used(void);
void reset(void);

enum { PAINT = 0x5ca1ab1e };

/* All of the stack but what this call and its callers have. */
static void paint_stack(void)
{
    uint32_t *end = (uint32_t *)__builtin_frame_address(0) - 8;
    for (volatile uint32_t *at = stack_bottom; at < end; at++)
        *at = PAINT;
}

/* The deepest use since power-up, in bytes. */
uint32_t stack_used(void)
{
    const volatile uint32_t *at = stack_bottom;
    while (at < stack_top && *at == PAINT)
        at++;
    return (uint32_t)(stack_top - at) * 4;
}

void reset(void)
{
    paint_stack();
    for (uint32_t *from = data_in_flash, *to = data_begin; to < data_end;)
        *to++ = *from++;
    for (uint32_t *at = bss_begin; at < bss_end;)
        *at++ = 0;
    main();
    for (;;)
        ;
}

/* Any fault, the stack's overflow among them: the board stops. No interrupt is enabled. */
static void stop(void)
{
    for (;;)
        ;
}

typedef void (*handler)(void);
__attribute__((section(".vectors"), used)) static const struct {
    uint32_t *stack;
    handler exceptions[15];
} vectors = {
    stack_top,
    {reset, stop /* NMI */, stop /* hard fault */, stop, stop, stop, 0, 0, 0, 0, stop /* SVCall */, stop, 0, stop, stop /* SysTick */},
};
