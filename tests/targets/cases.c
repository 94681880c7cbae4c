/*
 * Makes the calls of a case file (../second/FORMAT.md) through childbus.h and writes the output lines. A second file gets a line for
 * each call of childbus.h, its name and its deepest use of the stack in bytes.
 *
 * Each buffer is lent at an alignment that changes from call to call (the flash from F line to F line), with guard bytes around it.
 * After each call the guard bytes are looked at, and the bytes of buffers that are only read; after a number of 2 or above the state's,
 * after 0 and 1 those of the state that mean nothing. These are not 0 before any board call.
 *
 * Status: 0, 2 if a line of the case file is bad, 1 for anything else.
 */
#include "machine.h"
#include <childbus.h>

void *memcpy(void *restrict to, const void *restrict from, size_t len);
void *memset(void *to, int value, size_t len);

#define NOINLINE __attribute__((noinline))
#define INLINE static inline __attribute__((always_inline))

enum {
    MOST_BYTES = 600, MOST_ROOM = 512, MOST_FLASH = 131072, MOST_SERIAL = 40,
    WAITING_BYTES = 128, REPLY_BYTES = 256, DEFAULT_RANGE = 256, RESET_ADDRESS = 260, RESET = 262,
    UNTOUCHED = 0xa5, MEANS_NOTHING = 0x33, GUARD = 16, GUARD_BYTE = 0x5c
};

/* What a single result, and the places beside it, hold before a call. */
#define UNSET 0x7777777777777777u

static int status;
static uint32_t line_number;

static int same(const uint8_t *a, const uint8_t *b, size_t len)
{
    while (len > 0 && *a == *b) {
        a++;
        b++;
        len--;
    }
    return len == 0;
}

/* Output, in blocks. */

static int output;
static char block[65536];
static size_t in_block;

static void flush(void)
{
    if (machine_write(output, block, in_block) == FAILED) {
        machine_say("the output cannot be written\n");
        status = 1;
    }
    in_block = 0;
}

static void put(char c)
{
    if (in_block == sizeof block)
        flush();
    block[in_block++] = c;
}

static void put_text(const char *text)
{
    while (*text != '\0')
        put(*text++);
}

/* A number's digits, at the end of a text of 24 bytes. */
static const char *digits(uint64_t number, char *text)
{
    char *at = text + 23;
    *at = '\0';
    do {
        *--at = (char)('0' + number % 10);
        number /= 10;
    } while (number > 0);
    return at;
}

static void put_number(uint64_t number)
{
    char text[24];
    put(' ');
    put_text(digits(number, text));
}

static void put_hex(uint8_t byte)
{
    put("0123456789abcdef"[byte >> 4]);
    put("0123456789abcdef"[byte & 15]);
}

static void put_bytes(const uint8_t *bytes, size_t len)
{
    put(' ');
    if (len == 0)
        put('-');
    for (size_t i = 0; i < len; i++)
        put_hex(bytes[i]);
}

static void say_line(const char *what, int new_status)
{
    char text[24];
    machine_say("line ");
    machine_say(digits(line_number, text));
    machine_say(": ");
    machine_say(what);
    machine_say("\n");
    if (status != 1)
        status = new_status;
}

static void wrong(const char *what)
{
    say_line(what, 1);
}

static void wrong_byte(const char *what, size_t at, uint8_t expected, uint8_t found)
{
    char text[24];
    wrong(what);
    machine_say("  byte ");
    machine_say(digits(at, text));
    machine_say(": expected ");
    machine_say(digits(expected, text));
    machine_say(", found ");
    machine_say(digits(found, text));
    machine_say("\n");
}

/* Input, in blocks; a line is as long as the longest that FORMAT.md has. */

static int input;
static char got[65536];
static size_t got_at, got_end;
static char line[4096];

/* The next byte, or FAILED at the end. */
static int next_byte(void)
{
    if (got_at == got_end) {
        got_at = 0;
        got_end = machine_read(input, got, sizeof got);
        if (got_end == 0)
            return FAILED;
    }
    return (uint8_t)got[got_at++];
}

/* 0 at the end of the file. */
static int next_line(void)
{
    size_t len = 0;
    int byte = next_byte();
    if (byte == FAILED)
        return 0;
    for (; byte != FAILED && byte != '\n'; byte = next_byte())
        if (len < sizeof line - 1)
            line[len++] = (char)byte;
    line[len] = '\0';
    line_number++;
    return 1;
}

/* The fields of a line, taken one after another. */

static char *field;
static int bad;

struct bytes {
    size_t len;
    uint8_t at[MOST_BYTES];
};

/* After a field. */
static void field_ends(void)
{
    if (*field == ' ' && field[1] != '\0')
        field++;
    else if (*field != '\0')
        bad = 1;
}

static uint32_t number(uint32_t most)
{
    uint64_t value = 0;
    if (*field == '\0')
        bad = 1;
    while (*field >= '0' && *field <= '9' && value <= most)
        value = value * 10 + (uint32_t)(*field++ - '0');
    if (value > most)
        bad = 1;
    field_ends();
    return (uint32_t)value;
}

static int digit(char c)
{
    if (c >= '0' && c <= '9')
        return c - '0';
    return c >= 'a' && c <= 'f' ? c - 'a' + 10 : FAILED;
}

static void bytes(struct bytes *to, size_t most)
{
    to->len = 0;
    if (*field == '\0')
        bad = 1;
    if (*field == '-')
        field++;
    else
        while (digit(field[0]) != FAILED && digit(field[1]) != FAILED && to->len < most) {
            to->at[to->len++] = (uint8_t)(digit(field[0]) * 16 + digit(field[1]));
            field += 2;
        }
    field_ends();
}

/* All fields are taken, and none is bad. */
static int taken(void)
{
    if (bad || *field != '\0') {
        say_line("bad line", 2);
        return 0;
    }
    return 1;
}

/* Lent buffers. */

struct lent {
    uint8_t *at;
    size_t len;
    uint8_t *store;
};

#define STORE(name, most) \
    static uint64_t name##_store[(GUARD + 8 + (most) + GUARD) / 8 + 1]; \
    static struct lent name = {(uint8_t *)name##_store + GUARD, 0, (uint8_t *)name##_store}

STORE(profile, MOST_BYTES);
STORE(state, MOST_BYTES);
STORE(flash, MOST_FLASH);
STORE(tally, CHILDBUS_TALLY_BYTES);
STORE(out, MOST_ROOM);
STORE(frame, MOST_BYTES);
STORE(second, MOST_BYTES);
STORE(image, MOST_FLASH);
STORE(earlier, MOST_FLASH);
STORE(now, MOST_FLASH);

/* 0 to 7, another one each time. */
static size_t shift(void)
{
    static uint32_t random = 1;
    random = random * 1664525u + 1013904223u;
    return random >> 29;
}

static void lend_room(struct lent *to, size_t len)
{
    to->at = to->store + GUARD + shift();
    to->len = len;
    memset(to->store, GUARD_BYTE, (size_t)(to->at - to->store));
    memset(to->at + len, GUARD_BYTE, GUARD);
}

static void lend(struct lent *to, const uint8_t *given, size_t len)
{
    lend_room(to, len);
    memcpy(to->at, given, len);
}

static void lend_out(size_t room)
{
    lend_room(&out, room);
    memset(out.at, UNTOUCHED, room);
}

static void guarded(const struct lent *lent)
{
    const uint8_t *after = lent->at + lent->len;
    for (const uint8_t *at = lent->store; at < lent->at; at++)
        if (*at != GUARD_BYTE)
            wrong("written before a buffer");
    for (const uint8_t *at = after; at < after + GUARD; at++)
        if (*at != GUARD_BYTE)
            wrong("written after a buffer");
}

static void only_read(const struct lent *lent, const uint8_t *given)
{
    if (!same(lent->at, given, lent->len))
        wrong("a buffer that is only read has changed");
}

/* Single results, with a word on either side. */

struct wide {
    uint64_t before, value, after;
};

struct narrow {
    uint32_t before, value, after;
};

static const struct wide unset_wide = {UNSET, UNSET, UNSET};
static const struct narrow unset_narrow = {(uint32_t)UNSET, (uint32_t)UNSET, (uint32_t)UNSET};

static uint64_t wide(const struct wide *result)
{
    if (result->before != UNSET || result->after != UNSET)
        wrong("written beside a single result");
    return result->value;
}

static uint32_t narrow(const struct narrow *result)
{
    if (result->before != (uint32_t)UNSET || result->after != (uint32_t)UNSET)
        wrong("written beside a single result");
    return result->value;
}

/* The stack: the words below the stack pointer are painted before a call and looked at after it. */

enum { PAINTED = 2048 };
#define PAINT 0xc5c5c5c5u

enum {
    FRESH, RECEIVE, RECEIVE_TALLY, READ, ENCODE, GENERAL, DECODE, TWO_READS, VERSION, RESET_RUNNING,
    SILENCE, LOST, ERASED_NOTHING, UPLOAD_END, PAGE_CHANGED, CALLS
};

static const char *const names[CALLS] = {
    "childbus_fresh",   "childbus_receive", "childbus_receive_tally",  "childbus_read",       "childbus_encode",
    "childbus_general", "childbus_decode",  "childbus_two_reads",      "childbus_version",    "childbus_reset_running",
    "childbus_silence", "childbus_lost",    "childbus_erased_nothing", "childbus_upload_end", "childbus_page_changed",
};
static size_t deepest[CALLS], times[CALLS];

INLINE volatile uint32_t *paint(void)
{
    volatile uint32_t *words = (volatile uint32_t *)stack_pointer() - PAINTED;
    for (size_t i = 0; i < PAINTED; i++)
        words[i] = PAINT;
    return words;
}

INLINE void measure(int call, const volatile uint32_t *words)
{
    size_t i = 0;
    times[call]++;
    while (i < PAINTED && words[i] == PAINT)
        i++;
    if ((PAINTED - i) * 4 > deepest[call])
        deepest[call] = (PAINTED - i) * 4;
}

/* A call in a function of its own, whose stack pointer does not move between paint and call. */
#define MEASURED(call, expression) \
    volatile uint32_t *words = paint(); \
    uint32_t answer = expression; \
    measure(call, words); \
    return answer

static NOINLINE uint32_t call_fresh(void)
{
    MEASURED(FRESH, childbus_fresh(state.at, state.len));
}

static NOINLINE uint32_t call_receive(uint32_t address, uint64_t *made)
{
    MEASURED(RECEIVE, childbus_receive(profile.at, profile.len, state.at, state.len, address, frame.at, frame.len, flash.at, flash.len,
                                       out.at, out.len, made));
}

static NOINLINE uint32_t call_receive_tally(uint32_t address, uint64_t *made)
{
    MEASURED(RECEIVE_TALLY, childbus_receive_tally(profile.at, profile.len, state.at, state.len, address, frame.at, frame.len, flash.at,
                                                   flash.len, out.at, out.len, tally.at, tally.len, made));
}

static NOINLINE uint32_t call_read(uint32_t address, uint64_t *made)
{
    MEASURED(READ, childbus_read(profile.at, profile.len, state.at, state.len, address, flash.at, flash.len, out.at, out.len, made));
}

static NOINLINE uint32_t call_encode(const uint32_t *n, uint64_t *made)
{
    MEASURED(ENCODE, childbus_encode(n[0], n[1], n[2], n[3], n[4], n[5], frame.at, frame.len, out.at, out.len, made));
}

static NOINLINE uint32_t call_general(uint32_t bus, uint32_t longest, uint32_t reset, uint64_t *made)
{
    MEASURED(GENERAL, childbus_general(bus, longest, reset, out.at, out.len, made));
}

static NOINLINE uint32_t call_decode(const uint32_t *n, uint32_t *reply_status, uint64_t *start, uint64_t *len)
{
    MEASURED(DECODE, childbus_decode(n[0], n[1], n[2], n[3], frame.at, frame.len, reply_status, start, len));
}

static NOINLINE uint32_t call_two_reads(uint32_t code, uint32_t asked, uint64_t *start, uint64_t *len)
{
    MEASURED(TWO_READS, childbus_two_reads(code, asked, frame.at, frame.len, second.at, second.len, start, len));
}

static NOINLINE uint32_t call_version(uint32_t major, uint32_t minor, uint32_t *known_major, uint32_t *known_minor)
{
    MEASURED(VERSION, childbus_version(major, minor, known_major, known_minor));
}

static NOINLINE uint32_t call_reset_running(const uint32_t *n, uint64_t *made)
{
    MEASURED(RESET_RUNNING, childbus_reset_running(n[0], n[1], n[2], n[3], out.at, out.len, made));
}

static NOINLINE uint32_t call_silence(uint32_t address, uint32_t number_answered)
{
    MEASURED(SILENCE, childbus_silence(profile.at, profile.len, state.at, state.len, address, frame.at, frame.len, number_answered));
}

static NOINLINE uint32_t call_lost(void)
{
    MEASURED(LOST, childbus_lost(profile.at, profile.len, state.at, state.len, second.at, second.len, now.at, now.len));
}

static NOINLINE uint32_t call_erased_nothing(uint32_t number_answered)
{
    MEASURED(ERASED_NOTHING, childbus_erased_nothing(profile.at, profile.len, frame.at, frame.len, number_answered, second.at,
                                                     second.len, state.at, state.len));
}

static NOINLINE uint32_t call_upload_end(void)
{
    MEASURED(UPLOAD_END, childbus_upload_end(profile.at, profile.len, image.at, image.len, earlier.at, earlier.len, now.at, now.len));
}

static NOINLINE uint32_t call_page_changed(uint32_t page)
{
    MEASURED(PAGE_CHANGED, childbus_page_changed(profile.at, profile.len, page, earlier.at, earlier.len, now.at, now.len));
}

/* What the lines of the case file have set. */

static uint8_t profile_now[CHILDBUS_PROFILE_BYTES], state_now[CHILDBUS_STATE_BYTES], tally_now[CHILDBUS_TALLY_BYTES];
static size_t room = 256;
static int has_profile, has_flash;

static void store(uint8_t *at, uint32_t value)
{
    for (int i = 0; i < 4; i++)
        at[i] = (uint8_t)(value >> 8 * i);
}

static uint32_t load(const uint8_t *at)
{
    return at[0] | (uint32_t)at[1] << 8 | (uint32_t)at[2] << 16 | (uint32_t)at[3] << 24;
}

/* 0 for 64, 1 for 128. Any other page is a byte that says none: its low byte, or 2 and 3 where that is 0 and 1. */
static uint8_t page_byte(uint32_t page)
{
    uint8_t low = (uint8_t)page;
    if (page == 64 || page == 128)
        return page == 128;
    return low < 2 ? low + 2 : low;
}

/* Whether a byte of a state means nothing in this state. */
static int means_nothing(const uint8_t *of, size_t at)
{
    if (at == CHILDBUS_STATE_OWN_ADDRESS)
        return of[CHILDBUS_STATE_ADDRESS_KIND] == 0;
    if (at < CHILDBUS_STATE_WAITING)
        return at == 3;
    if (at < CHILDBUS_STATE_REPLY)
        return at - CHILDBUS_STATE_WAITING >= load(of + CHILDBUS_STATE_WAITING_COUNT);
    return at - CHILDBUS_STATE_REPLY >= load(of + CHILDBUS_STATE_REPLY_LENGTH);
}

/* Another byte at each place that means nothing, never 0. */
static void fill_state(void)
{
    for (size_t i = 0; i < sizeof state_now; i++)
        if (means_nothing(state_now, i))
            state_now[i] = (uint8_t)(i * 37) | 1;
}

/* The state after a call: all as it was after 2 and above, else what means nothing now. */
static void state_kept(uint32_t answer)
{
    for (size_t i = 0; i < sizeof state_now; i++)
        if ((answer >= 2 || means_nothing(state.at, i)) && state.at[i] != state_now[i]) {
            wrong_byte(answer >= 2 ? "refused or silent, and the state has changed" : "a byte of the state that means nothing has changed",
                       i, state_now[i], state.at[i]);
            return;
        }
}

static void profile_line(void)
{
    uint8_t made[CHILDBUS_PROFILE_BYTES] = {0};
    struct bytes serial;
    made[CHILDBUS_PROFILE_BUS] = (uint8_t)number(1);
    store(made + CHILDBUS_PROFILE_LONGEST, number(UINT32_MAX));
    made[CHILDBUS_PROFILE_PAGE] = page_byte(number(UINT32_MAX));
    store(made + CHILDBUS_PROFILE_SIZE, number(UINT32_MAX));
    store(made + CHILDBUS_PROFILE_OFFSET, number(UINT32_MAX));
    for (int i = CHILDBUS_PROFILE_HARDWARE; i <= CHILDBUS_PROFILE_BOOTLOADER; i++)
        made[i] = (uint8_t)number(255);
    bytes(&serial, MOST_SERIAL);
    if (!taken())
        return;
    made[CHILDBUS_PROFILE_SERIAL_LENGTH] = (uint8_t)serial.len;
    memcpy(made + CHILDBUS_PROFILE_SERIAL, serial.at, serial.len < CHILDBUS_SERIAL_MAX ? serial.len : CHILDBUS_SERIAL_MAX);
    memcpy(profile_now, made, sizeof made);
    has_profile = 1;
}

static void flash_line(void)
{
    uint32_t len = number(MOST_FLASH);
    uint32_t a = number(UINT32_MAX);
    uint32_t b = number(UINT32_MAX);
    if (!taken())
        return;
    lend_room(&flash, len);
    for (uint32_t i = 0; i < len; i++)
        flash.at[i] = (uint8_t)(a * i + b);
    has_flash = 1;
}

static void make_fresh(void)
{
    memset(state_now, MEANS_NOTHING, sizeof state_now);
    lend(&state, state_now, sizeof state_now);
    if (call_fresh() != CHILDBUS_MADE)
        wrong("the fresh state is not made");
    guarded(&state);
    for (size_t i = 0; i < state.len; i++)
        if (state.at[i] != 0) {
            wrong_byte("the fresh state is not all zeros", i, 0, state.at[i]);
            break;
        }
    memcpy(state_now, state.at, sizeof state_now);
}

static void fresh_line(void)
{
    if (taken())
        make_fresh();
}

static void state_line(void)
{
    uint8_t made[CHILDBUS_STATE_BYTES];
    struct bytes waiting, reply;
    uint32_t own = number(DEFAULT_RANGE);
    made[CHILDBUS_STATE_ADDRESS_KIND] = own != DEFAULT_RANGE;
    made[CHILDBUS_STATE_OWN_ADDRESS] = own != DEFAULT_RANGE ? (uint8_t)own : MEANS_NOTHING;
    made[CHILDBUS_STATE_RUNNING] = (uint8_t)number(1);
    made[3] = MEANS_NOTHING;
    for (int at = CHILDBUS_STATE_NEXT; at <= CHILDBUS_STATE_REPLY_LENGTH; at += 4)
        store(made + at, number(UINT32_MAX));
    bytes(&waiting, WAITING_BYTES);
    bytes(&reply, REPLY_BYTES);
    if (waiting.len < WAITING_BYTES || reply.len < REPLY_BYTES)
        bad = 1;
    if (!taken())
        return;
    memcpy(made + CHILDBUS_STATE_WAITING, waiting.at, WAITING_BYTES);
    memcpy(made + CHILDBUS_STATE_REPLY, reply.at, REPLY_BYTES);
    memcpy(state_now, made, sizeof made);
}

static void room_line(void)
{
    uint32_t len = number(MOST_ROOM);
    if (taken())
        room = len;
}

static void tally_line(void)
{
    uint8_t made[CHILDBUS_TALLY_BYTES];
    for (int i = 0; i < 10; i += 2) {
        uint32_t counter = number(65535);
        made[i] = (uint8_t)counter;
        made[i + 1] = (uint8_t)(counter >> 8);
    }
    if (taken())
        memcpy(tally_now, made, sizeof made);
}

/* The calls. */

/* The output's length where the number is 0, else 0. */
static size_t made_of(uint32_t answer, const struct wide *made)
{
    uint64_t len = wide(made);
    if (len > out.len || (answer != CHILDBUS_MADE && len != 0)) {
        wrong("no length of an output is that");
        return 0;
    }
    return (size_t)len;
}

static void put_out(uint32_t answer, const struct wide *made)
{
    put_number(answer);
    put_bytes(out.at, made_of(answer, made));
}

/* The output is what was made, and untouched bytes. */
static void put_ok(uint64_t made)
{
    size_t i = made <= out.len ? (size_t)made : out.len;
    while (i < out.len && out.at[i] == UNTOUCHED)
        i++;
    put_number(i == out.len);
    guarded(&out);
}

static size_t least(uint32_t len, size_t most)
{
    return len < most ? len : most;
}

static void put_state(void)
{
    uint32_t w = load(state_now + CHILDBUS_STATE_WAITING_COUNT);
    uint32_t reply_len = load(state_now + CHILDBUS_STATE_REPLY_LENGTH);
    put_number(state_now[CHILDBUS_STATE_ADDRESS_KIND] == 0 ? DEFAULT_RANGE : state_now[CHILDBUS_STATE_OWN_ADDRESS]);
    put_number(state_now[CHILDBUS_STATE_RUNNING]);
    put_number(load(state_now + CHILDBUS_STATE_NEXT));
    put_number(w);
    put_number(load(state_now + CHILDBUS_STATE_ERASE_COUNT));
    put_bytes(state_now + CHILDBUS_STATE_WAITING, least(w, WAITING_BYTES));
    put_bytes(state_now + CHILDBUS_STATE_REPLY, least(reply_len, REPLY_BYTES));
}

/* The 64-bit FNV-1a hash, in two halves; its prime is 2^40 + 435. */
struct hash {
    uint32_t high, low;
};

static struct hash hash_of(const uint8_t *at, size_t len)
{
    uint32_t high = 0xcbf29ce4, low = 0x84222325;
    for (const uint8_t *end = at + len; at < end; at++) {
        low ^= *at;
        uint32_t least_part = (low & 0xffff) * 435;
        uint32_t rest = (low >> 16) * 435 + (least_part >> 16);
        high = high * 435 + (low << 8) + (rest >> 16);
        low = rest << 16 | (least_part & 0xffff);
    }
    return (struct hash){high, low};
}

static void put_hash(const uint8_t *at, size_t len)
{
    struct hash hash = hash_of(at, len);
    put(' ');
    for (int i = 24; i >= 0; i -= 8)
        put_hex((uint8_t)(hash.high >> i));
    for (int i = 24; i >= 0; i -= 8)
        put_hex((uint8_t)(hash.low >> i));
}

static void put_tally(void)
{
    for (int i = 0; i < 10; i += 2)
        put_number(tally_now[i] | (uint32_t)tally_now[i + 1] << 8);
}

/* Board calls: the line's fields are read, a profile and a flash are there. */
static int board_taken(void)
{
    if (!has_profile || !has_flash)
        bad = 1;
    return taken();
}

static void lend_board(void)
{
    fill_state();
    lend(&profile, profile_now, sizeof profile_now);
    lend(&state, state_now, sizeof state_now);
    lend_out(room);
}

/* Takes back the buffers of a board call and writes its output line, without its end. */
static void put_board(char letter, uint32_t answer, const struct wide *made)
{
    guarded(&profile);
    guarded(&state);
    guarded(&flash);
    only_read(&profile, profile_now);
    state_kept(answer);
    memcpy(state_now, state.at, sizeof state_now);
    put(letter);
    put_out(answer, made);
    put_state();
    put_hash(flash.at, flash.len);
    put_ok(made->value);
}

static void receive_line(int counted)
{
    struct wide made = unset_wide;
    struct bytes given;
    uint32_t address = number(255), answer;
    bytes(&given, MOST_BYTES);
    if (!board_taken())
        return;
    lend_board();
    lend(&frame, given.at, given.len);
    lend(&tally, tally_now, sizeof tally_now);
    answer = counted ? call_receive_tally(address, &made.value) : call_receive(address, &made.value);
    guarded(&frame);
    only_read(&frame, given.at);
    guarded(&tally);
    memcpy(tally_now, tally.at, sizeof tally_now);
    put_board(counted ? 'C' : 'R', answer, &made);
    if (counted)
        put_tally();
    put('\n');
}

static void read_line(void)
{
    struct wide made = unset_wide;
    uint32_t address = number(255), answer;
    if (!board_taken())
        return;
    lend_board();
    answer = call_read(address, &made.value);
    only_read(&state, state_now);
    put_board('I', answer, &made);
    put('\n');
}

static void put_request(char letter, uint32_t answer, const struct wide *made)
{
    put(letter);
    put_out(answer, made);
    put_ok(made->value);
    put('\n');
}

static void encode_line(void)
{
    struct wide made = unset_wide;
    struct bytes data;
    uint32_t n[6] = {number(1)}, answer;
    for (int i = 1; i < 6; i++)
        n[i] = number(UINT32_MAX);
    bytes(&data, MOST_BYTES);
    if (!taken())
        return;
    lend_out(room);
    lend(&frame, data.at, data.len);
    if (n[2] == RESET_ADDRESS || n[2] == RESET)
        answer = call_general(n[0], n[1], n[2] - RESET_ADDRESS, &made.value);
    else
        answer = call_encode(n, &made.value);
    guarded(&frame);
    only_read(&frame, data.at);
    put_request('E', answer, &made);
}

static void reset_running_line(void)
{
    struct wide made = unset_wide;
    uint32_t n[4] = {number(1)};
    n[1] = number(UINT32_MAX);
    n[2] = number(255);
    n[3] = number(255);
    if (!taken())
        return;
    lend_out(room);
    uint32_t answer = call_reset_running(n, &made.value);
    put_request('A', answer, &made);
}

static void decode_line(void)
{
    struct wide start = unset_wide, len = unset_wide;
    struct narrow reply_status = unset_narrow;
    struct bytes reply;
    uint32_t n[4] = {number(1)}, answer;
    n[1] = number(UINT32_MAX);
    n[2] = number(255);
    n[3] = number(UINT32_MAX);
    bytes(&reply, MOST_BYTES);
    if (!taken())
        return;
    lend(&frame, reply.at, reply.len);
    answer = call_decode(n, &reply_status.value, &start.value, &len.value);
    guarded(&frame);
    only_read(&frame, reply.at);
    put('D');
    put_number(answer);
    put_number(narrow(&reply_status));
    put_number(wide(&start));
    put_number(wide(&len));
    put('\n');
}

static void two_reads_line(void)
{
    struct wide start = unset_wide, len = unset_wide;
    struct bytes one, two;
    uint32_t code = number(UINT32_MAX), asked = number(UINT32_MAX), which;
    bytes(&one, MOST_BYTES);
    bytes(&two, MOST_BYTES);
    if (!taken())
        return;
    lend(&frame, one.at, one.len);
    lend(&second, two.at, two.len);
    which = call_two_reads(code, asked, &start.value, &len.value);
    guarded(&frame);
    guarded(&second);
    only_read(&frame, one.at);
    only_read(&second, two.at);
    const struct bytes *named = which == 2 ? &two : &one;
    put('T');
    put_number(which);
    if (wide(&start) > named->len || wide(&len) > named->len - start.value || (which == 0 && len.value != 0))
        wrong("results outside of the read");
    else
        put_bytes(named->at + start.value, (size_t)len.value);
    put('\n');
}

static void version_line(void)
{
    struct narrow known_major = unset_narrow, known_minor = unset_narrow;
    uint32_t major = number(255), minor = number(255), answer;
    if (!taken())
        return;
    answer = call_version(major, minor, &known_major.value, &known_minor.value);
    put('V');
    put_number(answer);
    put_number(narrow(&known_major));
    put_number(narrow(&known_minor));
    put('\n');
}

/* The calls on what must not be missed. All their buffers are in their line, packed, and are only read. */

static void lend_byte(struct lent *to, size_t most, uint32_t count)
{
    if (digit(field[0]) == FAILED || digit(field[1]) == FAILED || count == 0 || count > most - to->len) {
        bad = 1;
        return;
    }
    memset(to->at + to->len, digit(field[0]) * 16 + digit(field[1]), count);
    to->len += count;
    field += 2;
}

/* One part: a count, `*` and a pair of hex digits, or pairs. */
static void lend_part(struct lent *to, size_t most)
{
    char *first = field;
    uint32_t count = 0;
    while (*field >= '0' && *field <= '9' && count <= most)
        count = count * 10 + (uint32_t)(*field++ - '0');
    if (*field == '*' && field > first) {
        field++;
        lend_byte(to, most, count);
        return;
    }
    field = first;
    do
        lend_byte(to, most, 1);
    while (!bad && *field != '+' && *field != ' ' && *field != '\0');
}

/* Lends the bytes of a field: `-`, or parts joined by `+`. */
static void lend_packed(struct lent *to, size_t most)
{
    lend_room(to, 0);
    if (*field == '-') {
        field++;
    } else {
        lend_part(to, most);
        while (!bad && *field == '+') {
            field++;
            lend_part(to, most);
        }
    }
    memset(to->at + to->len, GUARD_BYTE, GUARD);
    field_ends();
}

/* What was lent, and its hashes before the call. */
struct given {
    const struct lent *lent[4];
    struct hash hashes[4];
};

static struct given given_of(const struct lent *a, const struct lent *b, const struct lent *c, const struct lent *d)
{
    struct given given = {{a, b, c, d}, {{0, 0}}};
    for (int i = 0; i < 4; i++)
        given.hashes[i] = hash_of(given.lent[i]->at, given.lent[i]->len);
    return given;
}

static void put_alarm(char letter, uint32_t answer, const struct given *given)
{
    for (int i = 0; i < 4; i++) {
        struct hash hash = hash_of(given->lent[i]->at, given->lent[i]->len);
        guarded(given->lent[i]);
        if (hash.high != given->hashes[i].high || hash.low != given->hashes[i].low)
            wrong("a buffer that is only read has changed");
    }
    put(letter);
    put_number(answer);
    put('\n');
}

static void silence_line(void)
{
    lend_packed(&profile, MOST_BYTES);
    lend_packed(&state, MOST_BYTES);
    uint32_t address = number(UINT32_MAX);
    lend_packed(&frame, MOST_BYTES);
    uint32_t number_answered = number(UINT32_MAX);
    if (!taken())
        return;
    struct given given = given_of(&profile, &state, &frame, &frame);
    put_alarm('Q', call_silence(address, number_answered), &given);
}

static void lost_line(void)
{
    lend_packed(&profile, MOST_BYTES);
    lend_packed(&state, MOST_BYTES);
    lend_packed(&second, MOST_BYTES);
    lend_packed(&now, MOST_FLASH);
    if (!taken())
        return;
    struct given given = given_of(&profile, &state, &second, &now);
    put_alarm('L', call_lost(), &given);
}

static void erased_nothing_line(void)
{
    lend_packed(&profile, MOST_BYTES);
    lend_packed(&frame, MOST_BYTES);
    uint32_t number_answered = number(UINT32_MAX);
    lend_packed(&second, MOST_BYTES);
    lend_packed(&state, MOST_BYTES);
    if (!taken())
        return;
    struct given given = given_of(&profile, &frame, &second, &state);
    put_alarm('X', call_erased_nothing(number_answered), &given);
}

static void upload_end_line(void)
{
    lend_packed(&profile, MOST_BYTES);
    lend_packed(&image, MOST_FLASH);
    lend_packed(&earlier, MOST_FLASH);
    lend_packed(&now, MOST_FLASH);
    if (!taken())
        return;
    struct given given = given_of(&profile, &image, &earlier, &now);
    put_alarm('U', call_upload_end(), &given);
}

static void page_changed_line(void)
{
    lend_packed(&profile, MOST_BYTES);
    uint32_t page = number(UINT32_MAX);
    lend_packed(&earlier, MOST_FLASH);
    lend_packed(&now, MOST_FLASH);
    if (!taken())
        return;
    struct given given = given_of(&profile, &earlier, &now, &now);
    put_alarm('H', call_page_changed(page), &given);
}

static void take_line(void)
{
    char letter = line[0];
    bad = letter != '\0' && line[1] != '\0' && (line[1] != ' ' || line[2] == '\0');
    field = line[1] == ' ' ? line + 2 : line + 1;
    switch (letter) {
    case '\0': case '#': break;
    case 'P': profile_line(); break;
    case 'F': flash_line(); break;
    case 'Z': fresh_line(); break;
    case 'S': state_line(); break;
    case 'B': room_line(); break;
    case 'K': tally_line(); break;
    case 'R': receive_line(0); break;
    case 'C': receive_line(1); break;
    case 'I': read_line(); break;
    case 'E': encode_line(); break;
    case 'D': decode_line(); break;
    case 'T': two_reads_line(); break;
    case 'V': version_line(); break;
    case 'A': reset_running_line(); break;
    case 'Q': silence_line(); break;
    case 'L': lost_line(); break;
    case 'X': erased_nothing_line(); break;
    case 'U': upload_end_line(); break;
    case 'H': page_changed_line(); break;
    default: say_line("bad line", 2);
    }
}

static void put_stack(void)
{
    for (int i = 0; i < CALLS; i++) {
        if (times[i] == 0)
            continue;
        put_text(names[i]);
        put_number(deepest[i]);
        put('\n');
        if (deepest[i] == PAINTED * 4)
            wrong("more stack used than painted");
    }
}

int cases(const char *input_name, const char *output_name, const char *stack_name)
{
    int stack = machine_open(stack_name, 1);
    input = machine_open(input_name, 0);
    output = machine_open(output_name, 1);
    if (input == FAILED || output == FAILED || stack == FAILED) {
        machine_say("a file cannot be opened\n");
        return 1;
    }
    make_fresh();
    while (next_line())
        take_line();
    flush();
    output = stack;
    put_stack();
    flush();
    return status;
}
