/*
 * An example master over childbus.h, and the program: on each bus it finds the board, gives it an address, tries a reserved
 * one, uploads an image, finalizes, reads it back, compares, uploads once more, sends frames that get no reply, and starts the
 * application. The board has pages of 64 bytes on I2C and of 128 on RS485; only the erase count shows it. Master and board share
 * nothing but the bytes on the bus, which are `exchange` below; the board's numbers and its tally are shown as a service screen
 * would. Ends with status 0 if all went as it should.
 */
#include <stdbool.h>
#include <stdio.h>
#include <stdlib.h>
#include <string.h>

#include "board.h"

enum { ADDRESS = 9, IMAGE = 1000 };

struct master {
    struct board *board; /* the other end of the bus */
    uint32_t bus;
    uint32_t longest; /* M */
    uint8_t reply[CHILDBUS_FRAME_MAX];
};

static void fail(const char *what)
{
    fprintf(stderr, "master: %s\n", what);
    exit(1);
}

/* The bus: a request goes out, a reply comes back in master->reply. Answers its length; 0 is silence. */
static uint64_t exchange(struct master *master, uint32_t address, const uint8_t *request, uint64_t len)
{
    uint64_t made = board_frame(master->board, address, request, len);
    if (master->bus == CHILDBUS_I2C)
        made = board_read(master->board, address);
    memcpy(master->reply, master->board->reply, made);
    return made;
}

/* Sends a command. Answers its status, and the results where results points. Silence and bad replies end the program. */
static uint32_t command(struct master *master, uint32_t code, uint32_t address, uint32_t a, uint32_t b,
                        const uint8_t *data, uint64_t data_len, const uint8_t **results, uint64_t *results_len)
{
    uint8_t request[CHILDBUS_FRAME_MAX];
    uint64_t len, start;
    uint32_t status;
    /* on I2C the reply to set address is read at the new address */
    uint32_t answers_at = master->bus == CHILDBUS_I2C && code == CHILDBUS_CMD_SET_ADDRESS ? a : address;

    if (childbus_encode(master->bus, master->longest, code, address, a, b, data, data_len, request, sizeof request, &len) != CHILDBUS_MADE)
        fail("the request can't be made");
    uint64_t got = exchange(master, address, request, len);
    if (answers_at != address) {
        got = board_read(master->board, answers_at);
        memcpy(master->reply, master->board->reply, got);
    }
    if (got == 0)
        fail("no reply");
    if (childbus_decode(master->bus, code, address, b, master->reply, got, &status, &start, results_len) != CHILDBUS_MADE)
        fail("the reply can't be decoded");
    *results = master->reply + start;
    return status;
}

/* A command without data that must be OK. */
static const uint8_t *ask(struct master *master, uint32_t code, uint32_t address, uint32_t a, uint32_t b, uint64_t *len)
{
    static const uint8_t none[1];
    const uint8_t *results;
    if (command(master, code, address, a, b, none, 0, &results, len) != CHILDBUS_OK)
        fail("the board refused a command");
    return results;
}

/* Writes the image in frames as long as they can be, and finalizes. Answers the erase count. */
static unsigned upload(struct master *master, const uint8_t *image, size_t size)
{
    size_t most = master->longest - (master->bus == CHILDBUS_I2C ? 4 : 6);
    uint64_t len;
    size_t frames = 0;
    for (size_t at = 0; at < size; frames++) {
        const uint8_t *results;
        size_t n = size - at < most ? size - at : most;
        if (command(master, CHILDBUS_CMD_WRITE, ADDRESS, (uint32_t)at, 0, image + at, n, &results, &len) != CHILDBUS_OK)
            fail("the board refused a write");
        at += n;
    }
    const uint8_t *count = ask(master, CHILDBUS_CMD_FINALIZE, ADDRESS, 0, 0, &len);
    unsigned erased = (unsigned)count[0] << 8 | count[1];
    printf("  uploaded %zu bytes in %zu frames, finalized: %u pages erased\n", size, frames, erased);
    return erased;
}

static void read_back(struct master *master, const uint8_t *image, size_t size)
{
    size_t most = master->longest - (master->bus == CHILDBUS_I2C ? 3 : 5);
    for (size_t at = 0; at < size;) {
        size_t n = size - at < most ? size - at : most;
        uint64_t len;
        const uint8_t *results = ask(master, CHILDBUS_CMD_READ, ADDRESS, (uint32_t)at, (uint32_t)n, &len);
        if (len != n || memcmp(results, image + at, n) != 0)
            fail("the flash differs from the image");
        at += n;
    }
    printf("  read back %zu bytes: equal to the image\n", size);
}

/* The encoder's number for a set address. */
static uint32_t encoded(const struct master *master, uint32_t new_address)
{
    static const uint8_t none[1];
    uint8_t request[CHILDBUS_FRAME_MAX];
    uint64_t len;
    return childbus_encode(master->bus, master->longest, CHILDBUS_CMD_SET_ADDRESS, ADDRESS, new_address, 0, none, 0,
                           request, sizeof request, &len);
}

/* Address 0 is reserved: the encoder makes no such request, and the board refuses one that is made by hand (type 0: any). */
static void try_reserved(struct master *master)
{
    static const uint8_t i2c[] = {0x01, 0, 0, 0x40}, rs485[] = {ADDRESS, 0x01, 0, 0, 0x52, 0x78};
    const bool on_i2c = master->bus == CHILDBUS_I2C;
    uint32_t status;
    uint64_t start, len;

    if (encoded(master, 0) != CHILDBUS_ARGUMENT_OUT_OF_RANGE || encoded(master, on_i2c ? 8 : 1) != CHILDBUS_MADE)
        fail("the encoder takes reserved addresses, or refuses others");
    uint64_t got = exchange(master, ADDRESS, on_i2c ? i2c : rs485, on_i2c ? sizeof i2c : sizeof rs485);
    if (childbus_decode(master->bus, CHILDBUS_CMD_SET_ADDRESS, ADDRESS, 0, master->reply, got, &status, &start, &len) !=
            CHILDBUS_MADE || status != CHILDBUS_INVALID_ARGUMENTS)
        fail("the board took a reserved address");
    printf("  address 0: refused by encoder and board\n");
}

/* The application runs and answers the version request with 0.0. This example has no application, so its reply stands here. The reset that
 * follows reaches all boards; then the bootloader answers, in the default range. */
static void leave_application(struct master *master)
{
    static const uint8_t i2c[] = {CHILDBUS_OK, 2, 0, 0, 0x07}, rs485[] = {ADDRESS, CHILDBUS_OK, 2, 0, 0, 0x59, 0xc1};
    const bool on_i2c = master->bus == CHILDBUS_I2C;
    const uint8_t *reply = on_i2c ? i2c : rs485;
    uint8_t request[CHILDBUS_FRAME_MAX];
    uint32_t status, known_major, known_minor;
    uint64_t start, len;

    if (childbus_decode(master->bus, CHILDBUS_CMD_VERSION, ADDRESS, 0, reply, on_i2c ? sizeof i2c : sizeof rs485, &status, &start, &len) !=
            CHILDBUS_MADE || status != CHILDBUS_OK)
        fail("the application's reply can't be read");
    const uint32_t major = reply[start], minor = reply[start + 1];
    if (childbus_version(major, minor, &known_major, &known_minor) != CHILDBUS_APPLICATION_RUNNING)
        fail("the application is taken for something else");
    if (childbus_reset_running(master->bus, master->longest, major, minor, request, sizeof request, &len) != CHILDBUS_MADE ||
        exchange(master, CHILDBUS_GENERAL_CALL, request, len) != 0 || board_running(master->board))
        fail("the board was not reset");
    const uint8_t *r = ask(master, CHILDBUS_CMD_VERSION, CHILDBUS_DEFAULT_FIRST, 0, 0, &len);
    if (childbus_reset_running(master->bus, master->longest, r[0], r[1], request, sizeof request, &len) != CHILDBUS_NOTHING)
        fail("a bootloader is to be reset");
    printf("  version %u.%u: the application runs; reset, then version %u.%u\n", (unsigned)major, (unsigned)minor, r[0], r[1]);
}

/* A frame that gets no reply, on RS485, the board's number for it, and why it is silent. */
static void no_reply(struct master *master, const char *name, const uint8_t *frame, uint64_t len, uint32_t number, uint32_t silence)
{
    if (exchange(master, CHILDBUS_GENERAL_CALL, frame, len) != 0 || master->board->number != number || master->board->silence != silence)
        fail("another silence was expected");
    printf("  %s: no reply, number %u\n", name, (unsigned)number);
}

/* Version requests that the board drops: cut, too long, damaged, and for another board. On I2C the first three are answered,
 * by INVALID_TRANSFER and INVALID_CRC. */
static void show_silences(struct master *master)
{
    static const uint8_t none[1];
    uint8_t frame[BOARD_LONGEST + 1] = {0}, other[CHILDBUS_FRAME_MAX];
    uint64_t len, other_len;

    if (childbus_encode(master->bus, master->longest, CHILDBUS_CMD_VERSION, ADDRESS, 0, 0, none, 0, frame, sizeof frame,
                        &len) != CHILDBUS_MADE ||
        childbus_encode(master->bus, master->longest, CHILDBUS_CMD_VERSION, ADDRESS + 1, 0, 0, none, 0, other,
                        sizeof other, &other_len) != CHILDBUS_MADE)
        fail("the request can't be made");
    no_reply(master, "frame cut after 3 bytes", frame, 3, CHILDBUS_FRAME_SHORT, CHILDBUS_SILENCE_SHORT);
    no_reply(master, "frame of M + 1 bytes", frame, master->longest + 1, CHILDBUS_FRAME_LONG, CHILDBUS_SILENCE_LONG);
    frame[len - 1] ^= 1;
    no_reply(master, "damaged frame", frame, len, CHILDBUS_FRAME_CRC_WRONG, CHILDBUS_SILENCE_CRC);
    no_reply(master, "frame for another board", other, other_len, CHILDBUS_FRAME_FOREIGN, CHILDBUS_SILENCE_FOREIGN);
}

/* Bytes that wait are not in flash: a reset loses them, though the board said OK. Here those of the image's first bytes, turned over. */
static void lose_bytes(struct master *master, const uint8_t *image)
{
    uint8_t data[6], request[CHILDBUS_FRAME_MAX];
    const uint8_t *results;
    uint64_t len;

    for (size_t i = 0; i < sizeof data; i++)
        data[i] = (uint8_t)~image[i];
    if (command(master, CHILDBUS_CMD_WRITE, CHILDBUS_DEFAULT_FIRST, 0, 0, data, sizeof data, &results, &len) != CHILDBUS_OK ||
        master->board->pages != 0)
        fail("the write was not taken, or went to flash");
    if (childbus_general(master->bus, master->longest, 1, request, sizeof request, &len) != CHILDBUS_MADE ||
        exchange(master, CHILDBUS_GENERAL_CALL, request, len) != 0 || master->board->silence != CHILDBUS_SILENCE_RESET)
        fail("the reset was not done");
    printf("  6 bytes written, OK; then reset: %u of them lost\n", (unsigned)master->board->lost);
}

/* What the flash holds, by the library, and not by what the master was told. */
static void show_flash(const struct board *board, const uint8_t *image, const uint8_t *earlier)
{
    static const char *const ends[] = {"the whole image", "a part of the image", "what it held before"};
    uint32_t end = childbus_upload_end(board->profile, sizeof board->profile, image, IMAGE, earlier, sizeof board->flash, board->flash,
                                       sizeof board->flash);
    if (end != CHILDBUS_UPLOAD_WHOLE)
        fail("the upload is not whole");
    printf("  the flash holds %s\n", ends[end]);
}

static void show_tally(const struct board *board)
{
    printf("  tally: short %u, long %u, CRC %u, foreign %u, answered %u\n", board_counter(board, CHILDBUS_TALLY_SHORT),
           board_counter(board, CHILDBUS_TALLY_LONG), board_counter(board, CHILDBUS_TALLY_CRC),
           board_counter(board, CHILDBUS_TALLY_FOREIGN), board_counter(board, CHILDBUS_TALLY_ANSWERED));
}

static void run_master(struct board *board, uint32_t bus, uint32_t page, const uint8_t *image)
{
    struct master master = {.board = board, .bus = bus, .longest = CHILDBUS_FRAME_MIN};
    uint8_t request[CHILDBUS_FRAME_MAX];
    uint32_t major, minor;
    uint64_t len;

    board_power_up(board, bus, page);
    printf("%s, pages of %u bytes\n", bus == CHILDBUS_I2C ? "I2C" : "RS485", board_page(board));

    /* all boards to the start, then speak to the default range */
    if (childbus_general(bus, master.longest, 1, request, sizeof request, &len) != CHILDBUS_MADE ||
        exchange(&master, CHILDBUS_GENERAL_CALL, request, len) != 0)
        fail("a general call was answered");
    const uint8_t *r = ask(&master, CHILDBUS_CMD_VERSION, CHILDBUS_DEFAULT_FIRST, 0, 0, &len);
    if (childbus_version(r[0], r[1], &major, &minor) != CHILDBUS_MADE)
        fail("the board's version is not known");
    printf("  protocol version %u.%u\n", (unsigned)major, (unsigned)minor);
    r = ask(&master, CHILDBUS_CMD_HARDWARE_INFO, CHILDBUS_DEFAULT_FIRST, 0, 0, &len);
    uint8_t type = r[0];
    printf("  hardware type %u, compatible revision %u, bootloader %u, %u bytes of flash\n", r[0], r[1], r[2],
           (unsigned)r[3] << 8 | r[4]);
    r = ask(&master, CHILDBUS_CMD_LONGEST, CHILDBUS_DEFAULT_FIRST, 0, 0, &len);
    master.longest = (uint32_t)r[0] << 8 | r[1];
    printf("  longest frame %u\n", (unsigned)master.longest);
    ask(&master, CHILDBUS_CMD_SET_ADDRESS, CHILDBUS_DEFAULT_FIRST, ADDRESS, type, &len);
    printf("  address set to %u\n", (unsigned)ADDRESS);
    try_reserved(&master); /* it still listens there */
    r = ask(&master, CHILDBUS_CMD_SERIAL, ADDRESS, 0, 0, &len);
    printf("  serial %.*s\n", (int)len, (const char *)r);

    if (upload(&master, image, IMAGE) != (IMAGE + board_page(board) - 1) / board_page(board))
        fail("another erase count was expected");
    read_back(&master, image, IMAGE);
    if (upload(&master, image, IMAGE) != 0 || !board->erased_nothing)
        fail("a repeated upload erased a page");
    show_flash(board, image, board->earlier);

    /* a damaged frame: INVALID_CRC on I2C, silence on RS485 */
    static const uint8_t none[1];
    if (bus == CHILDBUS_RS485) {
        show_silences(&master);
    } else {
        if (childbus_encode(bus, master.longest, CHILDBUS_CMD_VERSION, ADDRESS, 0, 0, none, 0, request, sizeof request,
                            &len) != CHILDBUS_MADE)
            fail("the request can't be made");
        request[len - 1] ^= 1;
        if (exchange(&master, ADDRESS, request, len) != 3 || master.reply[0] != CHILDBUS_INVALID_CRC)
            fail("a damaged frame was taken");
        printf("  damaged frame: status INVALID_CRC\n");
    }

    /* start has no reply */
    if (childbus_encode(bus, master.longest, CHILDBUS_CMD_START, ADDRESS, 0, 0, none, 0, request, sizeof request, &len) != CHILDBUS_MADE ||
        exchange(&master, ADDRESS, request, len) != 0 || !board_running(board))
        fail("the application was not started");
    printf("  application started\n");

    for (size_t i = 0; i < BOARD_OFFSET; i++)
        if (board->flash[i] != 0xb0)
            fail("the bootloader was changed");
    for (size_t i = BOARD_OFFSET + IMAGE; i < sizeof board->flash; i++)
        if (board->flash[i] != 0xff)
            fail("flash behind the image was changed");
    printf("  flash outside the image: unchanged\n");
    leave_application(&master);
    show_tally(board); /* the reset has not cleared it */
    lose_bytes(&master, image);
}

int main(void)
{
    /* from the heap, so that valgrind sees every byte that is used before it is written, or past an end */
    struct board *board = malloc(sizeof *board);
    uint8_t *image = malloc(IMAGE);
    if (board == NULL || image == NULL)
        fail("no memory");
    for (size_t i = 0; i < IMAGE; i++)
        image[i] = (uint8_t)(i * 7 + i / 64);
    run_master(board, CHILDBUS_I2C, CHILDBUS_PAGE_64, image);
    run_master(board, CHILDBUS_RS485, CHILDBUS_PAGE_128, image);
    free(image);
    free(board);
    printf("done\n");
    return 0;
}
