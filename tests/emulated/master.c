/*
 * A master over childbus.h at the emulated board: `master TTY PAGE FILE`, PAGE the board's page in bytes. It resets all boards, asks what
 * the board is, gives it an address, uploads FILE, reads it back and uploads it again, sends a damaged and a foreign frame, starts the
 * application and resets. Ends with status 0 if every reply and every silence was as expected.
 */
#define _XOPEN_SOURCE 700
#include "line.h"
#include <childbus.h>
#include <string.h>

/* More than the board's silence and its 80 ms: after this no reply comes. */
enum { SILENCE_MS = 400 };
enum { OWN = 33, IMAGE_MAX = 65536 };

static int line;
static uint32_t longest = CHILDBUS_FRAME_MIN;
static uint8_t request[CHILDBUS_FRAME_MAX], reply[CHILDBUS_FRAME_MAX];
static uint64_t request_len;

static void fail(const char *step, const char *why)
{
    fprintf(stderr, "C master: %s: %s\n", step, why);
    exit(1);
}

static void encode(const char *step, uint32_t code, uint32_t destination, uint32_t a, uint32_t b, const uint8_t *data, size_t len)
{
    static const uint8_t none[1];
    if (childbus_encode(CHILDBUS_RS485, longest, code, destination, a, b, data ? data : none, len, request, sizeof request,
                        &request_len) != CHILDBUS_MADE)
        fail(step, "the request can't be made");
}

static void silence(const char *step)
{
    if (line_ready(line, SILENCE_MS))
        fail(step, "silence was expected");
}

/* Sends the request; answers where the results of the reply are, whose status is OK. Its third byte is how many results it has. */
static const uint8_t *exchange(const char *step, uint64_t *len)
{
    uint32_t status;
    uint64_t start;
    uint32_t asked = request[1] == CHILDBUS_CMD_READ ? request[4] : 0;
    line_send(line, request, request_len);
    size_t n = line_take(line, reply, 3);
    if (n == 3 && reply[2] + 5u <= sizeof reply)
        n += line_take(line, reply + 3, reply[2] + 2u);
    if (childbus_decode(CHILDBUS_RS485, request[1], request[0], asked, reply, n, &status, &start, len) != CHILDBUS_MADE)
        fail(step, n == 0 ? "no reply" : "the reply can't be read");
    if (status != CHILDBUS_OK)
        fail(step, "another status than OK");
    return reply + start;
}

static const uint8_t *ask(const char *step, uint32_t code, uint32_t destination, uint32_t a, uint32_t b, uint64_t *len)
{
    encode(step, code, destination, a, b, NULL, 0);
    return exchange(step, len);
}

/* Answers the erase count. */
static unsigned upload(const uint8_t *image, size_t size)
{
    uint64_t len;
    for (size_t at = 0, n; at < size; at += n) {
        n = size - at < longest - 6 ? size - at : longest - 6;
        encode("write", CHILDBUS_CMD_WRITE, OWN, (uint32_t)at, 0, image + at, n);
        exchange("write", &len);
    }
    const uint8_t *count = ask("finalize", CHILDBUS_CMD_FINALIZE, OWN, 0, 0, &len);
    return (unsigned)count[0] << 8 | count[1];
}

static void read_back(const uint8_t *image, size_t size, uint32_t address)
{
    uint64_t len;
    for (size_t at = 0, n; at < size; at += n) {
        n = size - at < longest - 5 ? size - at : longest - 5;
        const uint8_t *bytes = ask("read", CHILDBUS_CMD_READ, address, (uint32_t)at, (uint32_t)n, &len);
        if (len != n || memcmp(bytes, image + at, n) != 0)
            fail("read", "the flash differs from the file");
    }
}

static void general_reset(void)
{
    if (childbus_general(CHILDBUS_RS485, longest, 1, request, sizeof request, &request_len) != CHILDBUS_MADE)
        fail("reset", "the request can't be made");
    line_send(line, request, request_len);
    silence("reset");
}

static void version(const char *step)
{
    uint32_t major, minor;
    uint64_t len;
    const uint8_t *r = ask(step, CHILDBUS_CMD_VERSION, CHILDBUS_DEFAULT_FIRST, 0, 0, &len);
    if (childbus_version(r[0], r[1], &major, &minor) != CHILDBUS_MADE)
        fail(step, "not known");
}

int main(int argc, char **argv)
{
    static uint8_t image[IMAGE_MAX];
    unsigned page = argc == 4 ? (unsigned)strtoul(argv[2], NULL, 10) : 0;
    uint64_t len;
    if (page != CHILDBUS_PAGE && page != CHILDBUS_PAGE_MAX) {
        fprintf(stderr, "usage: master TTY 64|128 FILE\n");
        return 2;
    }
    FILE *file = fopen(argv[3], "rb");
    if (file == NULL)
        fail(argv[3], "can't be read");
    size_t size = fread(image, 1, sizeof image, file);
    fclose(file);
    unsigned pages = 0; /* the empty flash has 0xff everywhere: a page like that is not erased */
    for (size_t at = 0; at < size; at += page) {
        size_t used = at;
        while (used < size && used < at + page && image[used] == 0xff)
            used++;
        pages += used < size && used < at + page;
    }
    line = line_open(argv[1]);

    general_reset();
    version("version");
    const uint8_t *r = ask("hardware info", CHILDBUS_CMD_HARDWARE_INFO, CHILDBUS_DEFAULT_FIRST, 0, 0, &len);
    uint32_t type = r[0];
    if (size == 0 || size > ((size_t)r[3] << 8 | r[4]))
        fail(argv[3], "empty, or more than the board's flash");
    r = ask("longest frame", CHILDBUS_CMD_LONGEST, CHILDBUS_DEFAULT_FIRST, 0, 0, &len);
    longest = (uint32_t)r[0] << 8 | r[1];
    ask("set address", CHILDBUS_CMD_SET_ADDRESS, CHILDBUS_DEFAULT_FIRST, OWN, type, &len);

    if (upload(image, size) != pages)
        fail("first upload", "another number of pages");
    read_back(image, size, OWN);
    if (upload(image, size) != 0)
        fail("the same upload again", "a page was erased");
    read_back(image, size, OWN);

    encode("damaged frame", CHILDBUS_CMD_FINALIZE, OWN, 0, 0, NULL, 0);
    request[request_len - 1] ^= 0x10;
    line_send(line, request, request_len);
    silence("damaged frame");
    encode("foreign frame", CHILDBUS_CMD_VERSION, OWN + 1, 0, 0, NULL, 0);
    line_send(line, request, request_len);
    silence("foreign frame");

    encode("start", CHILDBUS_CMD_START, OWN, 0, 0, NULL, 0);
    line_send(line, request, request_len);
    silence("start");
    encode("version while running", CHILDBUS_CMD_VERSION, OWN, 0, 0, NULL, 0);
    line_send(line, request, request_len);
    silence("version while running");
    general_reset();
    version("version after the reset");
    read_back(image, size, CHILDBUS_DEFAULT_FIRST);
    printf("C master: upload of %zu bytes, %u pages erased; the same again, 0; read back; damaged, foreign, start, reset: no reply\n",
           size, pages);
    return 0;
}
