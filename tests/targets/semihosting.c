/* cases.c on a bare machine: files, command line and end by semihosting, as QEMU has it. */
#include "semihosting.h"
#include "machine.h"

enum { OPEN = 0x01, WRITE0 = 0x04, WRITE = 0x05, READ = 0x06, GET_COMMAND_LINE = 0x15, EXIT = 0x20 };
enum { READ_BINARY = 1, WRITE_BINARY = 5, APPLICATION_EXIT = 0x20026 };

static size_t length(const char *text)
{
    size_t len = 0;
    while (text[len] != '\0')
        len++;
    return len;
}

int machine_open(const char *name, int to_write)
{
    uintptr_t words[] = {(uintptr_t)name, to_write ? WRITE_BINARY : READ_BINARY, length(name)};
    return (int)semihosting(OPEN, words);
}

/* Reading and writing answer the number of bytes that are left. */
size_t machine_read(int file, void *bytes, size_t len)
{
    uintptr_t words[] = {(uintptr_t)file, (uintptr_t)bytes, len};
    uintptr_t left = semihosting(READ, words);
    return left > len ? 0 : len - left;
}

int machine_write(int file, const void *bytes, size_t len)
{
    uintptr_t words[] = {(uintptr_t)file, (uintptr_t)bytes, len};
    return semihosting(WRITE, words) == 0 ? 0 : FAILED;
}

void machine_say(const char *text)
{
    semihosting(WRITE0, text);
}

static void leave(int status)
{
    uintptr_t words[] = {APPLICATION_EXIT, (uintptr_t)status};
    for (;;)
        semihosting(EXIT, words);
}

static void say_hex(uint32_t number)
{
    char text[11] = "0x";
    for (int i = 0; i < 8; i++)
        text[2 + i] = "0123456789abcdef"[number >> (28 - 4 * i) & 15];
    text[10] = '\0';
    machine_say(text);
}

void fault(const char *what, uint32_t cause, uint32_t at)
{
    machine_say("fault: ");
    machine_say(what);
    machine_say(" ");
    say_hex(cause);
    machine_say(" at ");
    say_hex(at);
    machine_say("\n");
    leave(1);
}

/* Cuts the command line at its spaces; missing words are empty. */
static void words_of(char *line, const char **words, size_t count)
{
    for (size_t i = 0; i < count; i++) {
        words[i] = line;
        while (*line != ' ' && *line != '\0')
            line++;
        if (*line == ' ')
            *line++ = '\0';
    }
}

static int is(const char *word, const char *other)
{
    while (*word != '\0' && *word == *other) {
        word++;
        other++;
    }
    return *word == *other;
}

/* Not inlined: a compiler that knows the address to be odd reads byte by byte. */
static __attribute__((noinline, noclone)) void read_word(uintptr_t at)
{
    (void)*(volatile uint32_t *)at;
}

/* One word in the place of the names tries a fault: `unmapped` reads where there is no memory, `unaligned` at an odd address. */
static int run(const char *const *words)
{
    static uint32_t two_words[2];
    if (is(words[0], "unmapped"))
        read_word(0x90000000u);
    else if (is(words[0], "unaligned"))
        read_word((uintptr_t)two_words + 1);
    else
        return cases(words[0], words[1], words[2]);
    return 0;
}

void start(void)
{
    static char line[4096];
    const char *words[4];
    uintptr_t request[] = {(uintptr_t)line, sizeof line};
    if (semihosting(GET_COMMAND_LINE, request) != 0) {
        machine_say("no command line\n");
        leave(2);
    }
    words_of(line, words, 4);
    leave(run(words + 1));
}
