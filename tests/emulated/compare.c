/*
 * Random exchanges with the emulated board, and the same frames on the x86-64 library: `compare TTY LOG SEED COUNT`. Both begin fresh.
 * After each frame the reply's bytes, or the silence's number, and the lines of the board's log (board.c) must be what the library gives
 * here: address, running, next, waiting bytes, erase count, the whole flash, the tally. At a difference it prints seed, frame and both
 * answers, and ends with status 1.
 *
 * The log says when the board is done with a frame, so no silence is waited for. It says also what the board took for a frame: where a
 * busy machine cut one, the pieces are compared.
 */
#define _XOPEN_SOURCE 700
#include "line.h"
#include "profile.h"
#include <inttypes.h>
#include <stdarg.h>
#include <string.h>
#include <time.h>

enum { FRAME_ROOM = 300 }; /* the longest frame sent; the board's own buffer has room for more */
enum { TEXT = 4096 };

static uint8_t state[CHILDBUS_STATE_BYTES], tally[CHILDBUS_TALLY_BYTES], flash[OFFSET + SIZE], reply[LONGEST];
static uint8_t frame[FRAME_ROOM];
static size_t frame_len;
static int line, board_log;
static uint64_t seed, random_state;
static unsigned exchange_number, cut;
static unsigned numbers[19], statuses[6]; /* how often each was answered */

/* SplitMix64. */
static uint64_t random_bits(void)
{
    uint64_t z = random_state += 0x9e3779b97f4a7c15u;
    z = (z ^ z >> 30) * 0xbf58476d1ce4e5b9u;
    z = (z ^ z >> 27) * 0x94d049bb133111ebu;
    return z ^ z >> 31;
}

static unsigned below(unsigned n)
{
    return (unsigned)(random_bits() % n);
}

static uint32_t field(size_t at)
{
    return state[at] | (uint32_t)state[at + 1] << 8 | (uint32_t)state[at + 2] << 16 | (uint32_t)state[at + 3] << 24;
}

static void print_bytes(const char *before, const uint8_t *bytes, size_t len)
{
    fprintf(stderr, "%s", before);
    for (size_t i = 0; i < len; i++)
        fprintf(stderr, " %02x", bytes[i]);
    fprintf(stderr, "\n");
}

static void differ(const char *board, const char *here)
{
    fprintf(stderr, "compare: seed %" PRIu64 ", exchange %u: a difference\n", seed, exchange_number);
    print_bytes("frame:  ", frame, frame_len);
    fprintf(stderr, "board:   %s\nx86-64:  %s\n", board, here);
    exit(1);
}

/* The text of a line, as board.c writes it. */
static size_t add(char *text, size_t at, const char *format, ...)
{
    va_list arguments;
    va_start(arguments, format);
    int n = vsnprintf(text + at, TEXT - at, format, arguments);
    va_end(arguments);
    return at + (size_t)n;
}

static size_t add_bytes(char *text, size_t at, const char *before, const uint8_t *bytes, size_t len)
{
    at = add(text, at, "%s", before);
    for (size_t i = 0; i < len; i++)
        at = add(text, at, " %02x", bytes[i]);
    return at;
}

static uint32_t hash(const uint8_t *bytes, size_t len)
{
    uint32_t value = 2166136261u;
    for (size_t i = 0; i < len; i++)
        value = (value ^ bytes[i]) * 16777619u;
    return value;
}

static void state_text(char *text)
{
    uint32_t waiting = field(CHILDBUS_STATE_WAITING_COUNT);
    size_t at = add(text, 0, "state address ");
    if (state[CHILDBUS_STATE_ADDRESS_KIND])
        at = add(text, at, "%u", state[CHILDBUS_STATE_OWN_ADDRESS]);
    else
        at = add(text, at, "default");
    at = add(text, at, " running %u next %" PRIu32 " waiting %" PRIu32 " %08" PRIx32, state[CHILDBUS_STATE_RUNNING],
             field(CHILDBUS_STATE_NEXT), waiting, hash(state + CHILDBUS_STATE_WAITING, waiting));
    at = add(text, at, " erased %" PRIu32 " flash %08" PRIx32 " tally", field(CHILDBUS_STATE_ERASE_COUNT), hash(flash, sizeof flash));
    for (size_t i = 0; i < CHILDBUS_TALLY_BYTES; i += 2)
        at = add(text, at, " %u", tally[i] | (unsigned)tally[i + 1] << 8);
}

/* The log's next line, waited for. */
static void log_line(char *text)
{
    size_t len = 0;
    for (int waited_ms = 0; waited_ms < PATIENCE_MS;) {
        ssize_t n = read(board_log, text + len, 1);
        if (n < 0 || len == TEXT - 1)
            differ("its log can't be read", "");
        if (n == 0) {
            nanosleep(&(struct timespec){0, 1000000}, NULL);
            waited_ms++;
        } else if (text[len++] == '\n') {
            text[len - 1] = 0;
            return;
        }
    }
    text[len] = 0;
    differ("its log doesn't go on", text);
}

static void expect_line(const char *here)
{
    char board[TEXT];
    log_line(board);
    if (strcmp(board, here) != 0)
        differ(board, here);
}

static void expect_state(void)
{
    char board[TEXT], here[TEXT];
    state_text(here);
    log_line(board);
    char *stack = strstr(board, " stack ");
    if (stack != NULL)
        *stack = 0;
    if (strcmp(board, here) != 0)
        differ(board, here);
}

/* How many bytes of the frame, from this place on, the board says it received in one piece. */
static size_t piece(const char *text, size_t from)
{
    static const char before[] = "received";
    size_t n = 0;
    unsigned byte;
    const char *at = text + sizeof before - 1;
    if (strncmp(text, before, sizeof before - 1) != 0)
        return 0;
    for (; sscanf(at, " %2x", &byte) == 1 && strncmp(at, " answered", 4) != 0; at += 3, n++)
        if (from + n >= frame_len || frame[from + n] != byte)
            return 0;
    return n;
}

static void exchange(void)
{
    exchange_number++;
    if (line_ready(line, 0))
        differ("sends where nothing was asked", "");
    line_send(line, frame, frame_len);
    for (size_t done = 0, n; done < frame_len; done += n) {
        char board[TEXT], here[TEXT];
        log_line(board);
        n = piece(board, done);
        if (n == 0)
            differ(board, "other bytes were sent");
        cut += done + n < frame_len;

        uint64_t made;
        uint8_t was_running = state[CHILDBUS_STATE_RUNNING];
        uint32_t number = childbus_receive_tally(profile, sizeof profile, state, sizeof state, 0, frame + done, n, flash, sizeof flash,
                                                 reply, sizeof reply, tally, sizeof tally, &made);
        if (number >= sizeof numbers / sizeof *numbers || (number != CHILDBUS_MADE && !childbus_silent(number)))
            differ(board, "refused");
        numbers[number]++;
        size_t at = add_bytes(here, 0, "received", frame + done, n);
        if (number == CHILDBUS_MADE)
            add_bytes(here, at, " answered", reply, made);
        else
            add(here, at, " silent %" PRIu32, number);
        if (strcmp(board, here) != 0)
            differ(board, here);
        if (state[CHILDBUS_STATE_RUNNING] && !was_running)
            expect_line("application started");
        expect_state();

        uint8_t got[LONGEST];
        size_t got_len = line_take(line, got, made);
        if (got_len != made || memcmp(got, reply, made) != 0) {
            add_bytes(board, 0, "sent", got, got_len);
            differ(board, here);
        }
        if (number == CHILDBUS_MADE)
            statuses[reply[1] % 6]++;
    }
}

/* The kinds of frames. The first ones of a run are one of each, in this order; the numbers are how often the others are chosen. */
#define KINDS(KIND)                                                                                                                \
    KIND(WRITE_NEXT, 26) KIND(WRITE_AT_0, 5) KIND(WRITE_NEXT_AGAIN, 26) KIND(WRITE_ELSEWHERE, 4) KIND(FINALIZE, 6) KIND(READ, 8)   \
    KIND(READ_ANY, 4) KIND(QUESTION, 6) KIND(ARGUMENTS, 4) KIND(OTHER_COMMAND, 3) KIND(OTHER_TYPE, 2) KIND(RESERVED, 3)            \
    KIND(SET_ADDRESS, 3) KIND(DAMAGED, 5) KIND(FOREIGN, 4) KIND(TOO_SHORT, 4) KIND(TOO_LONG, 4) KIND(RANDOM_SEALED, 4)             \
    KIND(RANDOM, 3) KIND(RESET_ADDRESS, 2) KIND(OTHER_GENERAL, 2) KIND(START, 2) KIND(RESET, 2)
#define NAME(name, weight) name,
#define WEIGHT(name, weight) weight,
enum { KINDS(NAME) KIND_COUNT };
static const unsigned weights[KIND_COUNT] = {KINDS(WEIGHT)};

/* CRC-16 of Modbus, low byte first. */
static void seal(void)
{
    unsigned crc = 0xffff;
    for (size_t i = 0; i < frame_len; i++) {
        crc ^= frame[i];
        for (int bit = 0; bit < 8; bit++)
            crc = crc & 1 ? crc >> 1 ^ 0xa001 : crc >> 1;
    }
    frame[frame_len++] = (uint8_t)crc;
    frame[frame_len++] = (uint8_t)(crc >> 8);
}

/* An address where the board listens. */
static uint8_t own(void)
{
    return state[CHILDBUS_STATE_ADDRESS_KIND] ? state[CHILDBUS_STATE_OWN_ADDRESS] : (uint8_t)(CHILDBUS_DEFAULT_FIRST + below(8));
}

static void begin(unsigned command)
{
    frame[0] = own();
    frame[1] = (uint8_t)command;
    frame_len = 2;
}

static void put(unsigned byte)
{
    frame[frame_len++] = (uint8_t)byte;
}

static void put_random(unsigned count)
{
    while (count-- > 0)
        put(below(256));
}

/* Data for flash: two images, so that many pages are there already, and sometimes any bytes. */
static void write_at(unsigned at, unsigned count)
{
    static unsigned image;
    bool any = below(6) == 0;
    if (below(12) == 0)
        image = !image;
    begin(CHILDBUS_CMD_WRITE);
    put(at >> 8);
    put(at);
    for (unsigned i = at; i < at + count; i++)
        put(any ? below(256) : image ? 0xff - i / 128 : i * 7 + i / 64);
    seal();
}

static unsigned some_data(void)
{
    return below(3) ? LONGEST - 6 - below(4) : below(LONGEST - 5);
}

static void make(unsigned kind)
{
    static const uint8_t questions[] = {CHILDBUS_CMD_VERSION, CHILDBUS_CMD_HARDWARE_INFO, CHILDBUS_CMD_SERIAL, CHILDBUS_CMD_REVISION,
                                        CHILDBUS_CMD_LONGEST};
    unsigned next = field(CHILDBUS_STATE_NEXT), at, count;
    frame_len = 0;
    switch (kind) {
    case WRITE_NEXT:
    case WRITE_NEXT_AGAIN: /* up to S, or a little over it */
        count = some_data();
        if (below(4) && count > SIZE - next)
            count = SIZE - next;
        write_at(next, count);
        break;
    case WRITE_AT_0:
        write_at(0, some_data());
        break;
    case WRITE_ELSEWHERE:
        write_at(below(2) ? below(65536) : next + below(3) + 63, some_data());
        break;
    case FINALIZE:
        begin(CHILDBUS_CMD_FINALIZE);
        seal();
        break;
    case READ:
    case READ_ANY:
        begin(CHILDBUS_CMD_READ);
        count = kind == READ ? below(LONGEST - 4) : below(256);
        at = kind == READ ? below(SIZE - count + 1) : below(2) ? SIZE - below(300) : below(65536);
        put(at >> 8);
        put(at);
        put(count);
        seal();
        break;
    case QUESTION:
        begin(questions[below(sizeof questions)]);
        seal();
        break;
    case ARGUMENTS: /* of any number */
        begin(below(13));
        put_random(below(6));
        seal();
        break;
    case OTHER_COMMAND:
        begin(below(2) ? below(256) : 13 + below(243));
        put_random(below(4));
        seal();
        break;
    case OTHER_TYPE:
        begin(CHILDBUS_CMD_SET_ADDRESS);
        put(below(256));
        put(8 + below(248));
        seal();
        break;
    case RESERVED:
        begin(CHILDBUS_CMD_SET_ADDRESS);
        put(below(3) ? 247 + below(9) : below(2));
        put(below(2) * 7);
        seal();
        break;
    case SET_ADDRESS:
        begin(CHILDBUS_CMD_SET_ADDRESS);
        put(1 + below(247));
        put(below(2) * 7);
        seal();
        break;
    case DAMAGED: /* one bit of any other frame that fits */
        make(below(DAMAGED));
        at = below((unsigned)frame_len);
        frame[at] ^= (uint8_t)(1 << below(8));
        break;
    case FOREIGN:
        begin(below(13));
        frame[0] = (uint8_t)(1 + below(255));
        put_random(below(8));
        seal();
        break;
    case TOO_SHORT:
        begin(0);
        seal();
        frame_len = 1 + below(3);
        break;
    case TOO_LONG:
        count = LONGEST + 1 + (below(2) ? 0 : below(FRAME_ROOM - LONGEST));
        begin(CHILDBUS_CMD_WRITE);
        put(next >> 8);
        put(next);
        put_random(count - 6);
        seal();
        break;
    case RANDOM_SEALED:
        put(own());
        put_random(below(40));
        seal();
        break;
    case RANDOM:
        put_random(1 + below(FRAME_ROOM));
        break;
    case RESET_ADDRESS:
    case RESET:
        put(CHILDBUS_GENERAL_CALL);
        put(kind == RESET ? 0x46 : 0x44);
        seal();
        break;
    case OTHER_GENERAL:
        put(CHILDBUS_GENERAL_CALL);
        put_random(1 + below(5));
        seal();
        break;
    case START:
        begin(CHILDBUS_CMD_START);
        seal();
        break;
    }
}

static unsigned choose(void)
{
    unsigned all = 0, kind = 0;
    if (state[CHILDBUS_STATE_RUNNING] && below(4) == 0)
        return RESET;
    for (unsigned i = 0; i < KIND_COUNT; i++)
        all += weights[i];
    for (unsigned at = below(all); at >= weights[kind]; kind++)
        at -= weights[kind];
    return kind;
}

int main(int argc, char **argv)
{
    unsigned count = argc == 5 ? (unsigned)strtoul(argv[4], NULL, 10) : 0;
    if (count == 0) {
        fprintf(stderr, "usage: compare TTY LOG SEED COUNT\n");
        return 2;
    }
    seed = random_state = strtoull(argv[3], NULL, 10);
    board_log = open(argv[2], O_RDONLY);
    if (board_log < 0) {
        perror(argv[2]);
        return 1;
    }
    line = line_open(argv[1]);
    memset(flash, 0xff, sizeof flash);
    if (childbus_fresh(state, sizeof state) != CHILDBUS_MADE)
        return 1;
    expect_state();
    for (unsigned i = 0; i < count; i++) {
        make(i < KIND_COUNT ? i : choose());
        exchange();
    }
    if (line_ready(line, 100))
        differ("sends where nothing was asked", "");
    printf("compare: seed %" PRIu64 ", %u exchanges: answered %u (status 0: %u, 2: %u, 5: %u)", seed, count, numbers[0], statuses[0],
           statuses[2], statuses[5]);
    printf(", silent 1: %u, 15: %u, 16: %u, 17: %u, 18: %u", numbers[1], numbers[15], numbers[16], numbers[17], numbers[18]);
    if (cut > 0)
        printf(", %u cuts in frames", cut);
    printf("\n");
    if (cut > count / 10) {
        fprintf(stderr, "compare: the board cuts frames\n");
        return 1;
    }
    if (!numbers[1] || !numbers[15] || !numbers[16] || !numbers[17] || !numbers[18] || !statuses[0] || !statuses[2] || !statuses[5]) {
        fprintf(stderr, "compare: a number or a status never came\n");
        return 1;
    }
    return 0;
}
