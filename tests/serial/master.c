/*
 * The board on a pseudo-terminal, asked by libmodbus: requests go out by modbus_send_raw_request, which adds the check sum,
 * and replies are taken by modbus_receive_confirmation, which tests it. libmodbus takes a status for a Modbus function; up to
 * status 4 the form of the reply is the same. (Status 5 is a longer reply in Modbus, so there the bytes are read as they come.)
 *
 *   master TTY whole_run    every command, an upload with read back, silence, general calls; pages of 64 bytes
 *   master TTY pages_of_128 an upload with read back, and when its pages come into flash
 *   master TTY silences     frames that get silence, for each reason, from a board with M = 64
 *   master TTY written B..  finalizes and compares the first bytes of flash with B.. (hex)
 */
#include <errno.h>
#include <modbus.h>
#include <poll.h>
#include <stdbool.h>
#include <stdint.h>
#include <stdio.h>
#include <stdlib.h>
#include <string.h>
#include <unistd.h>

enum { FIRST = 8, OWN = 20, IMAGE = 1500, DATA_MAX = 250, READ_MAX = 251, SMALL_M = 64 };

static modbus_t *bus;
static unsigned checks;

static void fail(const char *step, const char *why)
{
    fprintf(stderr, "%s: %s\n", step, why);
    exit(1);
}

/* How long to wait for a reply: long where one must come, shorter where none may. */
static void patience(uint32_t seconds, uint32_t microseconds)
{
    if (modbus_set_response_timeout(bus, seconds, microseconds) != 0)
        fail("timeout", modbus_strerror(errno));
}

static void send_request(const char *step, const uint8_t *request, int len)
{
    if (modbus_set_slave(bus, request[0]) != 0)
        fail(step, modbus_strerror(errno));
    if (modbus_send_raw_request(bus, request, len) != len + 2)
        fail(step, modbus_strerror(errno));
}

/* Sends a request; the reply, without its check sum, must be these bytes. */
static void expect(const char *step, const uint8_t *request, int len, const uint8_t *reply, int reply_len)
{
    uint8_t got[MODBUS_RTU_MAX_ADU_LENGTH];
    send_request(step, request, len);
    int n = modbus_receive_confirmation(bus, got);
    if (n < 0)
        fail(step, modbus_strerror(errno));
    if (n != reply_len + 2 || memcmp(got, reply, (size_t)reply_len) != 0) {
        for (int i = 0; i < n; i++)
            fprintf(stderr, "%02x ", got[i]);
        fail(step, "not the reply that was expected");
    }
    checks++;
}

/* No reply may come. */
static void expect_silence(const char *step)
{
    uint8_t got[MODBUS_RTU_MAX_ADU_LENGTH];
    patience(0, 600000);
    if (modbus_receive_confirmation(bus, got) >= 0 || errno != ETIMEDOUT)
        fail(step, "silence was expected");
    patience(10, 0);
    checks++;
}

static void expect_raw(const char *step, const uint8_t *request, int len, const uint8_t *reply, size_t reply_len)
{
    uint8_t got[16];
    size_t n = 0;
    int line = modbus_get_socket(bus);
    send_request(step, request, len);
    while (n < reply_len) {
        struct pollfd fd = {line, POLLIN, 0};
        if (poll(&fd, 1, 10000) <= 0)
            fail(step, "no reply");
        ssize_t more = read(line, got + n, sizeof got - n);
        if (more <= 0)
            fail(step, "read");
        n += (size_t)more;
    }
    if (n != reply_len || memcmp(got, reply, reply_len) != 0)
        fail(step, "not the reply that was expected");
    checks++;
}

/* A request, with libmodbus's check sum, that gets no reply. */
static void expect_none(const char *step, const uint8_t *request, int len)
{
    send_request(step, request, len);
    expect_silence(step);
}

/* Bytes that libmodbus doesn't make, straight to the line; they get no reply. */
static void expect_none_raw(const char *step, const uint8_t *bytes, size_t len)
{
    if (write(modbus_get_socket(bus), bytes, len) != (ssize_t)len)
        fail(step, "write");
    expect_silence(step);
}

#define BYTES(...) (const uint8_t[]){__VA_ARGS__}, sizeof(const uint8_t[]){__VA_ARGS__}

static void upload(const uint8_t *image, unsigned erased)
{
    uint8_t request[4 + DATA_MAX];
    for (unsigned at = 0; at < IMAGE; at += DATA_MAX) {
        memcpy(request, (uint8_t[]){OWN, 0x06, (uint8_t)(at >> 8), (uint8_t)at}, 4);
        memcpy(request + 4, image + at, DATA_MAX);
        expect("write", request, sizeof request, BYTES(OWN, 0, 0));
    }
    expect("finalize", BYTES(OWN, 0x07), BYTES(OWN, 0, 2, (uint8_t)(erased >> 8), (uint8_t)erased));
}

static void read_back(const uint8_t *image)
{
    uint8_t reply[3 + READ_MAX];
    for (unsigned at = 0; at < IMAGE; at += READ_MAX) {
        unsigned n = IMAGE - at < READ_MAX ? IMAGE - at : READ_MAX;
        memcpy(reply, (uint8_t[]){OWN, 0, (uint8_t)n}, 3);
        memcpy(reply + 3, image + at, n);
        expect("read", BYTES(OWN, 0x08, (uint8_t)(at >> 8), (uint8_t)at, (uint8_t)n), reply, (int)n + 3);
    }
}

static void whole_run(void)
{
    uint8_t image[IMAGE];
    for (unsigned i = 0; i < IMAGE; i++)
        image[i] = (uint8_t)(i * 5 + i / 64);

    expect("version", BYTES(FIRST, 0x00), BYTES(FIRST, 0, 2, 2, 2));
    expect("version, end of the default range", BYTES(15, 0x00), BYTES(15, 0, 2, 2, 2));
    expect("hardware info", BYTES(FIRST, 0x03), BYTES(FIRST, 0, 5, 7, 1, 3, 0x10, 0x00));
    expect("serial", BYTES(FIRST, 0x04), BYTES(FIRST, 0, 3, 'Q', 'R', 'S'));
    expect("revision", BYTES(FIRST, 0x09), BYTES(FIRST, 0, 1, 2));
    expect("longest frame", BYTES(FIRST, 0x0c), BYTES(FIRST, 0, 2, 1, 0));
    expect("command not served", BYTES(FIRST, 0x02), BYTES(FIRST, 2, 0));
    expect("unknown command", BYTES(FIRST, 0x46), BYTES(FIRST, 2, 0));
    expect_raw("write out of order", BYTES(FIRST, 0x06, 0, 1, 0x55), BYTES(FIRST, 5, 0, 0xf3, 0x52));

    expect_none("set address, another type", BYTES(FIRST, 0x01, OWN, 6));
    expect_raw("set address, reserved", BYTES(FIRST, 0x01, 0, 7), BYTES(FIRST, 5, 0, 0xf3, 0x52));
    expect_raw("set address, reserved", BYTES(FIRST, 0x01, 248, 7), BYTES(FIRST, 5, 0, 0xf3, 0x52));
    expect("set address", BYTES(FIRST, 0x01, OWN, 7), BYTES(FIRST, 0, 0));
    expect("version, new address", BYTES(OWN, 0x00), BYTES(OWN, 0, 2, 2, 2));
    expect_none("foreign address", BYTES(FIRST, 0x00));

    upload(image, (IMAGE + 63) / 64);
    read_back(image);
    upload(image, 0);

    expect_none_raw("damaged frame", BYTES(OWN, 0x00, 0x00, 0x00));
    expect("version, after a damaged frame", BYTES(OWN, 0x00), BYTES(OWN, 0, 2, 2, 2));

    expect_none("general call: reset address", BYTES(0, 0x44));
    expect("version, default range again", BYTES(FIRST, 0x00), BYTES(FIRST, 0, 2, 2, 2));

    expect_none("start", BYTES(FIRST, 0x05));
    expect_none("version while running", BYTES(FIRST, 0x00));
    expect_none("general call: reset", BYTES(0, 0x46));
    expect("version, after the reset", BYTES(FIRST, 0x00), BYTES(FIRST, 0, 2, 2, 2));
    expect("flash is kept", BYTES(FIRST, 0x08, 0, 0, 4), BYTES(FIRST, 0, 4, image[0], image[1], image[2], image[3]));
}

/* A board with pages of 128: half as many erases, and bytes wait until the 128th. */
static void pages_of_128(void)
{
    enum { PAGE = 128 };
    uint8_t image[IMAGE], request[4 + PAGE - 1] = {OWN, 0x06, 0, 0}, old[3 + PAGE] = {OWN, 0, PAGE}, new[3 + PAGE] = {OWN, 0, PAGE};
    for (unsigned i = 0; i < IMAGE; i++)
        image[i] = (uint8_t)(i * 3 + i / 128);
    for (unsigned i = 0; i < PAGE; i++) {
        old[3 + i] = image[i];
        new[3 + i] = (uint8_t)~image[i];
    }
    memcpy(request + 4, new + 3, PAGE - 1);

    expect("set address", BYTES(FIRST, 0x01, OWN, 7), BYTES(FIRST, 0, 0));
    upload(image, (IMAGE + PAGE - 1) / PAGE);
    read_back(image);
    upload(image, 0);
    expect("write, 127 bytes", request, sizeof request, BYTES(OWN, 0, 0));
    expect("read: nothing is in flash", BYTES(OWN, 0x08, 0, 0, PAGE), old, sizeof old);
    expect("write, the 128th byte", BYTES(OWN, 0x06, 0, PAGE - 1, new[3 + PAGE - 1]), BYTES(OWN, 0, 0));
    expect("read: the page is in flash", BYTES(OWN, 0x08, 0, 0, PAGE), new, sizeof new);
    expect("finalize, one page erased", BYTES(OWN, 0x07), BYTES(OWN, 0, 2, 0, 1));
}

/* tests/serial/run compares the board's numbers with these lines, in this order. */
static void silences(void)
{
    /* a write: with MOST data bytes its frame has M bytes; the longest that libmodbus makes has 256 */
    enum { MOST = SMALL_M - 6 };
    uint8_t request[4 + DATA_MAX] = {FIRST, 0x06, 0, 0};
    memset(request + 4, 0x33, DATA_MAX);

    expect("version", BYTES(FIRST, 0x00), BYTES(FIRST, 0, 2, 2, 2));
    expect_none("foreign, below the default range: 18", BYTES(7, 0x00));
    expect_none("foreign, above it: 18", BYTES(16, 0x00));
    expect_none("another general call: 1", BYTES(0, 0x00));
    expect("write, M bytes", request, 4 + MOST, BYTES(FIRST, 0, 0));
    expect_none("write, M + 1 bytes: 16", request, 4 + MOST + 1);
    expect_none("write, 256 bytes: 16", request, sizeof request);
    request[0] = 30;
    expect_none("write, M + 1 bytes, foreign: 16", request, 4 + MOST + 1);
    expect_none("write, M bytes, foreign: 18", request, 4 + MOST);
    expect_none_raw("wrong check sum: 17", BYTES(FIRST, 0x00, 0x06, 0x71));
    expect_none_raw("wrong check sum, foreign: 17", BYTES(30, 0x00, 0x00, 0x00));
    expect_none_raw("damaged reset: 17", BYTES(0, 0x46, 0x80, 0x43));
    expect_none_raw("one byte: 15", BYTES(FIRST));
    expect_none_raw("a version request without its last byte: 15", BYTES(FIRST, 0x00, 0x06));
    expect_none_raw("three bytes with a right check sum: 15", BYTES(FIRST, 0xbe, 0x86));
    expect_none_raw("300 bytes: 16", (const uint8_t[300]){FIRST, 0x00}, 300);
    /* the upload has gone on nowhere: 58 bytes wait, and the 59th is taken */
    expect("write where the first ended", BYTES(FIRST, 0x06, 0, MOST, 0x44), BYTES(FIRST, 0, 0));
    expect("finalize", BYTES(FIRST, 0x07), BYTES(FIRST, 0, 2, 0, 1));

    expect_none("start: 1", BYTES(FIRST, 0x05));
    expect_none("foreign while running: 1", BYTES(30, 0x00));
    expect_none("long while running: 1", request, sizeof request);
    expect_none_raw("wrong check sum while running: 1", BYTES(FIRST, 0x00, 0x06, 0x71));
    expect_none_raw("short while running: 1", BYTES(FIRST));
    expect_none("general call: reset: 1", BYTES(0, 0x46));
    expect("version, after the reset", BYTES(FIRST, 0x00), BYTES(FIRST, 0, 2, 2, 2));
}

static void written(char **bytes, int len)
{
    uint8_t reply[64];
    memcpy(reply, (uint8_t[]){FIRST, 0, (uint8_t)len}, 3);
    for (int i = 0; i < len; i++)
        reply[3 + i] = (uint8_t)strtoul(bytes[i], NULL, 16);
    expect("finalize", BYTES(FIRST, 0x07), BYTES(FIRST, 0, 2, 0, 1));
    expect("read", BYTES(FIRST, 0x08, 0, 0, (uint8_t)len), reply, len + 3);
}

int main(int argc, char **argv)
{
    bool whole = argc == 3 && strcmp(argv[2], "whole_run") == 0;
    bool pages = argc == 3 && strcmp(argv[2], "pages_of_128") == 0;
    bool silent = argc == 3 && strcmp(argv[2], "silences") == 0;
    if (!whole && !pages && !silent && !(argc > 3 && argc < 60 && strcmp(argv[2], "written") == 0)) {
        fprintf(stderr, "usage: master TTY whole_run | pages_of_128 | silences | written BYTE ..\n");
        return 2;
    }
    bus = modbus_new_rtu(argv[1], 9600, 'N', 8, 1);
    if (bus == NULL || modbus_connect(bus) != 0)
        fail(argv[1], modbus_strerror(errno));
    patience(10, 0);
    if (whole)
        whole_run();
    else if (pages)
        pages_of_128();
    else if (silent)
        silences();
    else
        written(argv + 3, argc - 3);
    modbus_close(bus);
    modbus_free(bus);
    printf("libmodbus: %u exchanges as expected\n", checks);
    return 0;
}
