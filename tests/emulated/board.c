/*
 * Firmware of a Childbus board on RS485, for a Cortex-M3: the LM3S6965, as QEMU's machine lm3s6965evb has it. It uses UART0, which is the
 * bus, SysTick, which measures the silence that ends a frame, and UART1, a service log. Nothing runs by interrupt.
 *
 * The log has two lines for each frame: `received BYTES answered BYTES`, or `received BYTES silent NUMBER`, and the state after it:
 *
 *   state address A running R next N waiting W HASH erased E flash HASH tally SHORT LONG CRC FOREIGN ANSWERED stack BYTES
 *
 * A is the own address or `default`; the hashes (FNV-1a, 32 bits) are of the waiting bytes and of the whole lent flash; stack is its
 * deepest use since power-up. The state is there once at power-up too. `application started` comes between the two lines. On a real line
 * such a log takes longer than the 16 bytes that UART0 keeps: there leave it out, or receive by interrupt.
 */
#include "profile.h"
#include <stdbool.h>

#define REGISTER(address) (*(volatile uint32_t *)(address))

/* System control: clocks of the UARTs and of the ports that their pins belong to. */
#define RCGC1 REGISTER(0x400fe104u)
#define RCGC2 REGISTER(0x400fe108u)
enum { RCGC1_UART0 = 1 << 0, RCGC1_UART1 = 1 << 1, RCGC2_PORT_A = 1 << 0, RCGC2_PORT_D = 1 << 3 };

/* Ports: which pins have their alternate function, and which are digital. */
#define PORT_A 0x40004000u
#define PORT_D 0x40007000u
#define GPIO_AFSEL(port) REGISTER((port) + 0x420u)
#define GPIO_DEN(port)   REGISTER((port) + 0x51cu)

/* UARTs (PL011). */
#define UART0 0x4000c000u
#define UART1 0x4000d000u
#define UART_DR(uart)   REGISTER((uart) + 0x00u)
#define UART_FR(uart)   REGISTER((uart) + 0x18u)
#define UART_IBRD(uart) REGISTER((uart) + 0x24u)
#define UART_FBRD(uart) REGISTER((uart) + 0x28u)
#define UART_LCRH(uart) REGISTER((uart) + 0x2cu)
#define UART_CTL(uart)  REGISTER((uart) + 0x30u)
enum { FR_BUSY = 1 << 3, FR_RXFE = 1 << 4, FR_TXFF = 1 << 5 };
enum { LCRH_EVEN_PARITY = 3 << 1, LCRH_FIFOS = 1 << 4, LCRH_8_BITS = 3 << 5 };
enum { CTL_ENABLED = 1 << 0 | 1 << 8 | 1 << 9 }; /* UART, transmitter, receiver */

#define SYSTICK_CTRL   REGISTER(0xe000e010u)
#define SYSTICK_RELOAD REGISTER(0xe000e014u)
#define SYSTICK_COUNT  REGISTER(0xe000e018u)
enum { SYSTICK_ENABLED = 1 << 0 | 1 << 2 /* by the system's clock */, SYSTICK_RAN_OUT = 1 << 16 };

/* The clock after reset: the internal oscillator, too coarse for a bus. Firmware for the real part chooses the crystal first. */
#define CLOCK_HZ 12000000u
#define BUS_BPS 19200u
#define LOG_BPS 115200u

/*
 * The end of a frame: SILENCE_TICKS ticks of SysTick without a byte. At 19,200 bps, 11 bits a character, t3.5 is 2 ms: ticks of 100 us.
 * QEMU doesn't pace bytes, and a busy machine halts the emulator within a frame, so 20 ms stand in for t3.5: ticks of 1 ms. However long
 * the emulator was halted, it counts as one tick.
 */
enum { SILENCE_TICKS = 20, TICK_US = 1000 };

static uint8_t state[CHILDBUS_STATE_BYTES];
static uint8_t tally[CHILDBUS_TALLY_BYTES];
/* The lent flash. The part's own flash isn't plain memory: there this is its copy, and pages that differ after a call are programmed
 * before the reply is sent (docs/INTEGRATION.md). */
static uint8_t flash[OFFSET + SIZE];
/* M + 1 bytes are enough, as any longer frame gets the same answer; the others are for the log. */
static uint8_t frame[320];
static uint8_t reply[LONGEST];

/* startup.c */
uint32_t stack_used(void);

static void uart_open(uint32_t uart, uint32_t bps, uint32_t parity)
{
    uint32_t divisor = (CLOCK_HZ * 4 + bps / 2) / bps; /* in units of 1/64 */
    UART_CTL(uart) = 0;
    UART_IBRD(uart) = divisor >> 6;
    UART_FBRD(uart) = divisor & 63;
    UART_LCRH(uart) = LCRH_8_BITS | LCRH_FIFOS | parity;
    UART_CTL(uart) = CTL_ENABLED;
}

static bool uart_has_byte(uint32_t uart)
{
    return !(UART_FR(uart) & FR_RXFE);
}

static void uart_put(uint32_t uart, uint8_t byte)
{
    while (UART_FR(uart) & FR_TXFF)
        ;
    UART_DR(uart) = byte;
}

static void hardware_open(void)
{
    RCGC1 |= RCGC1_UART0 | RCGC1_UART1;
    RCGC2 |= RCGC2_PORT_A | RCGC2_PORT_D;
    (void)RCGC2; /* the clocks need some cycles */
    (void)RCGC2;
    GPIO_AFSEL(PORT_A) |= 3; /* UART0: PA0 receives, PA1 sends */
    GPIO_DEN(PORT_A) |= 3;
    GPIO_AFSEL(PORT_D) |= 12; /* UART1: PD2, PD3 */
    GPIO_DEN(PORT_D) |= 12;
    uart_open(UART0, BUS_BPS, LCRH_EVEN_PARITY);
    uart_open(UART1, LOG_BPS, 0);
    SYSTICK_RELOAD = CLOCK_HZ / 1000000 * TICK_US - 1;
    SYSTICK_CTRL = SYSTICK_ENABLED;
}

static void log_text(const char *text)
{
    while (*text)
        uart_put(UART1, (uint8_t)*text++);
}

static void log_hex(uint32_t value, int digits)
{
    while (digits-- > 0)
        uart_put(UART1, (uint8_t)"0123456789abcdef"[value >> 4 * digits & 15]);
}

static void log_number(const char *before, uint32_t value)
{
    char digits[11], *at = digits + sizeof digits - 1;
    *at = 0;
    do
        *--at = (char)('0' + value % 10);
    while ((value /= 10) != 0);
    log_text(before);
    log_text(at);
}

static void log_bytes(const char *before, const uint8_t *bytes, uint32_t len)
{
    log_text(before);
    for (uint32_t i = 0; i < len; i++) {
        log_text(" ");
        log_hex(bytes[i], 2);
    }
}

static void log_hash(const uint8_t *bytes, uint32_t len)
{
    uint32_t hash = 2166136261u;
    for (uint32_t i = 0; i < len; i++)
        hash = (hash ^ bytes[i]) * 16777619u;
    log_text(" ");
    log_hex(hash, 8);
}

static uint32_t field(uint32_t at)
{
    return state[at] | (uint32_t)state[at + 1] << 8 | (uint32_t)state[at + 2] << 16 | (uint32_t)state[at + 3] << 24;
}

static void log_state(void)
{
    uint32_t waiting = field(CHILDBUS_STATE_WAITING_COUNT);
    if (state[CHILDBUS_STATE_ADDRESS_KIND])
        log_number("state address ", state[CHILDBUS_STATE_OWN_ADDRESS]);
    else
        log_text("state address default");
    log_number(" running ", state[CHILDBUS_STATE_RUNNING]);
    log_number(" next ", field(CHILDBUS_STATE_NEXT));
    log_number(" waiting ", waiting);
    log_hash(state + CHILDBUS_STATE_WAITING, waiting);
    log_number(" erased ", field(CHILDBUS_STATE_ERASE_COUNT));
    log_text(" flash");
    log_hash(flash, sizeof flash);
    log_text(" tally");
    for (uint32_t at = 0; at < CHILDBUS_TALLY_BYTES; at += 2)
        log_number(" ", tally[at] | (uint32_t)tally[at + 1] << 8);
    log_number(" stack ", stack_used());
    log_text("\n");
}

/* A number of 2 to 5: the build is wrong, or the state was overwritten. A board shows it on a pin. */
static void stop(uint32_t number)
{
    log_number("refused with number ", number);
    log_text("\n");
    for (;;)
        ;
}

/* Receives until silence. A byte with a UART error is taken too: whether the frame is good is for its check sum to say. */
static uint32_t receive_frame(void)
{
    uint32_t len = 0, ticks = 0;
    while (ticks < SILENCE_TICKS) {
        if (len > 0 && (SYSTICK_CTRL & SYSTICK_RAN_OUT)) /* reading clears it */
            ticks++;
        while (uart_has_byte(UART0)) { /* also after the last tick: then the frame hasn't ended */
            uint8_t byte = (uint8_t)UART_DR(UART0);
            if (len < sizeof frame)
                frame[len++] = byte;
            SYSTICK_COUNT = 0; /* any value: begins a new tick */
            ticks = 0;
        }
    }
    return len;
}

/* With a pin that enables the bus driver: on before the first byte, off when the UART is not busy any more. */
static void send(const uint8_t *bytes, uint32_t len)
{
    for (uint32_t i = 0; i < len; i++)
        uart_put(UART0, bytes[i]);
    while (UART_FR(UART0) & FR_BUSY)
        ;
}

/* Here the application would be called. This board has none: it goes on with the same state, which only the reset changes. */
static void start_application(void)
{
    log_text("application started\n");
}

int main(void)
{
    hardware_open();
    for (uint32_t i = 0; i < sizeof flash; i++)
        flash[i] = 0xff;
    uint32_t number = childbus_fresh(state, sizeof state);
    if (number != CHILDBUS_MADE)
        stop(number);
    log_state();
    for (;;) {
        uint8_t was_running = state[CHILDBUS_STATE_RUNNING];
        uint32_t len = receive_frame();
        uint64_t made; /* 64 bits on every machine */
        number = childbus_receive_tally(profile, sizeof profile, state, sizeof state, 0, frame, len, flash, sizeof flash,
                                        reply, sizeof reply, tally, sizeof tally, &made);
        if (number != CHILDBUS_MADE && !childbus_silent(number))
            stop(number);
        send(reply, (uint32_t)made); /* no bytes where the board is silent */
        log_bytes("received", frame, len);
        if (number == CHILDBUS_MADE)
            log_bytes(" answered", reply, (uint32_t)made);
        else
            log_number(" silent ", number);
        log_text("\n");
        if (state[CHILDBUS_STATE_RUNNING] && !was_running)
            start_application();
        log_state();
    }
}
