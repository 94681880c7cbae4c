/*
 * Plays a board's calls through the library: reads them as text from standard input, one on a line, and prints after each what the call
 * answered and left. Bytes are hexadecimal digits, - for none; numbers are decimal.
 *
 *   P PROFILE             another board: fresh state, tally 0; the flash stays    prints: lost, board
 *   W                     power off and on: fresh state, tally 0                  lost, board
 *   T                     tally 0                                                 board
 *   F BYTE                fills the flash with a byte (decimal)                   board
 *   B BYTES               bytes of the flash, from its first one on               board
 *   C ADDRESS FRAME       a received frame          number, reply, board, silence, lost, erased nothing, changed pages
 *   A ADDRESS FRAME       the same, and the reply of an application that answers version 0.0
 *   R ADDRESS             an I2C read                                             number, reply
 *   Q ADDRESS             an I2C read of the application's reply                  number, reply
 *   E CODE TO A B DATA    a request                                               number, frame
 *   G RESET               a general call                                          number, frame
 *
 * board: state, tally, and a hash of all flash bytes.
 */
#include <childbus.h>
#include <stdio.h>
#include <stdlib.h>
#include <string.h>

enum { FLASH = 131072, LINE = 400000 };

static uint8_t profile[CHILDBUS_PROFILE_BYTES], state[CHILDBUS_STATE_BYTES], tally[CHILDBUS_TALLY_BYTES];
static uint8_t answered[CHILDBUS_STATE_BYTES], flash[FLASH], before[FLASH], zeros[FLASH];
static uint8_t out[CHILDBUS_FRAME_MAX];
static uint64_t made;

static void print_bytes(const uint8_t *bytes, uint64_t count)
{
    if (count == 0)
        printf("-");
    for (uint64_t i = 0; i < count; i++)
        printf("%02x", bytes[i]);
    printf(" ");
}

static uint32_t hash(const uint8_t *bytes, size_t count)
{
    uint32_t sum = 0x811c9dc5u;
    for (size_t i = 0; i < count; i++)
        sum = (sum ^ bytes[i]) * 0x01000193u;
    return sum;
}

static void print_board(void)
{
    print_bytes(state, sizeof state);
    print_bytes(tally, sizeof tally);
    printf("%u ", hash(flash, sizeof flash));
}

static uint64_t bytes_of(const char *text, uint8_t *bytes)
{
    uint64_t count = 0;
    unsigned byte;
    while (sscanf(text + 2 * count, "%2x", &byte) == 1)
        bytes[count++] = (uint8_t)byte;
    return count;
}

static uint32_t field(int at)
{
    return (uint32_t)profile[at] | (uint32_t)profile[at + 1] << 8 | (uint32_t)profile[at + 2] << 16 | (uint32_t)profile[at + 3] << 24;
}

/* The board without power, or another one: what waited is lost. */
static void fresh(const uint8_t *next)
{
    uint8_t earlier[CHILDBUS_STATE_BYTES];
    memcpy(earlier, state, sizeof earlier);
    childbus_fresh(state, sizeof state);
    memset(tally, 0, sizeof tally);
    printf("%u ", childbus_lost(profile, sizeof profile, earlier, sizeof earlier, state, sizeof state, flash, sizeof flash));
    memcpy(profile, next, sizeof profile);
    print_board();
}

static void print_changed(void)
{
    uint32_t page = profile[CHILDBUS_PROFILE_PAGE] == CHILDBUS_PAGE_128 ? 128 : 64;
    for (uint32_t n = 0; n < field(CHILDBUS_PROFILE_SIZE) / page; n++)
        if (childbus_page_changed(profile, sizeof profile, n, before, sizeof before, flash, sizeof flash))
            printf("p%u ", n);
}

static void receive(uint32_t address, const uint8_t *frame, uint64_t length)
{
    uint8_t earlier[CHILDBUS_STATE_BYTES];
    memcpy(earlier, state, sizeof earlier);
    memcpy(before, flash, sizeof before);
    uint32_t number = childbus_receive_tally(profile, sizeof profile, state, sizeof state, address, frame, length, flash, sizeof flash,
                                             out, sizeof out, tally, sizeof tally, &made);
    printf("%u ", number);
    print_bytes(out, made);
    print_board();
    printf("%u ", childbus_silence(profile, sizeof profile, earlier, sizeof earlier, address, frame, length, number));
    printf("%u ", childbus_lost(profile, sizeof profile, earlier, sizeof earlier, state, sizeof state, flash, sizeof flash));
    printf("%u ", childbus_erased_nothing(profile, sizeof profile, frame, length, number, out, made, state, sizeof state));
    print_changed();
}

/* Version 0.0 has the form of a read of two zeros, by a bootloader over zeros. */
static void application(uint32_t address, const uint8_t *frame, uint64_t length)
{
    uint8_t request[CHILDBUS_FRAME_MAX];
    uint32_t bus = profile[CHILDBUS_PROFILE_BUS], to = bus == CHILDBUS_I2C || length == 0 ? address : frame[0];
    memcpy(answered, state, sizeof answered);
    answered[CHILDBUS_STATE_RUNNING] = 0;
    childbus_encode(bus, field(CHILDBUS_PROFILE_LONGEST), CHILDBUS_CMD_READ, to, 0, 2, zeros, 0, request, sizeof request, &made);
    childbus_receive(profile, sizeof profile, answered, sizeof answered, to, request, made, zeros, sizeof zeros, out, sizeof out, &made);
    print_bytes(out, made);
}

static void read_at(const uint8_t *from, uint32_t address)
{
    printf("%u ", childbus_read(profile, sizeof profile, from, CHILDBUS_STATE_BYTES, address, flash, sizeof flash, out, sizeof out,
                                &made));
    print_bytes(out, made);
}

static void request(uint32_t code, uint32_t to, uint32_t a, uint32_t b, const uint8_t *data, uint64_t length)
{
    printf("%u ", childbus_encode(profile[CHILDBUS_PROFILE_BUS], field(CHILDBUS_PROFILE_LONGEST), code, to, a, b, data, length, out,
                                  sizeof out, &made));
    print_bytes(out, made);
}

static void general(uint32_t reset)
{
    printf("%u ", childbus_general(profile[CHILDBUS_PROFILE_BUS], field(CHILDBUS_PROFILE_LONGEST), reset, out, sizeof out, &made));
    print_bytes(out, made);
}

/* A call of a line; 0 if it is none. */
static int call(char kind, const uint32_t *number, const uint8_t *bytes, uint64_t length)
{
    switch (kind) {
    case 'P': fresh(bytes); break;
    case 'W': fresh(profile); break;
    case 'T': memset(tally, 0, sizeof tally); print_board(); break;
    case 'F': memset(flash, (int)number[0], sizeof flash); print_board(); break;
    case 'B': memcpy(flash, bytes, length); print_board(); break;
    case 'C': receive(number[0], bytes, length); break;
    case 'A': receive(number[0], bytes, length); application(number[0], bytes, length); break;
    case 'R': read_at(state, number[0]); break;
    case 'Q': read_at(answered, number[0]); break;
    case 'E': request(number[0], number[1], number[2], number[3], bytes, length); break;
    case 'G': general(number[0]); break;
    default: return 0;
    }
    return 1;
}

int main(void)
{
    static char line[LINE];
    static uint8_t bytes[LINE / 2];
    childbus_fresh(state, sizeof state);
    memset(flash, 0xff, sizeof flash);
    while (fgets(line, sizeof line, stdin)) {
        static const char counts[] = "PWTFBCARQEG", numbers[] = "00010111141";
        const char *kind = strchr(counts, line[0]);
        uint32_t number[4] = {0};
        char *at = line + 1;
        if (!kind || !line[0])
            return 2;
        for (int i = 0; i < numbers[kind - counts] - '0'; i++)
            number[i] = (uint32_t)strtoul(at, &at, 10);
        while (*at == ' ')
            at++;
        if (!call(line[0], number, bytes, bytes_of(at, bytes)))
            return 2;
        printf("\n");
    }
    return 0;
}
