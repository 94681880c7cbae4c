/*
 * A board on a pseudo-terminal, over childbus.h: `board M PAGE`, PAGE 64 or 128. It writes the terminal's name on standard output
 * and serves until standard input ends. Each frame goes to standard error as `received BYTES answered BYTES`, or `silent NUMBER`
 * where nothing is sent: 1, or 15 to 18, which say why. Its last line there is the tally.
 */
#define _XOPEN_SOURCE 700
#include <childbus.h>
#include <fcntl.h>
#include <poll.h>
#include <stdbool.h>
#include <stdio.h>
#include <stdlib.h>
#include <string.h>
#include <termios.h>
#include <unistd.h>

/* A pseudo-terminal has no line speed, and a busy machine cuts frames: far more than t3.5. */
enum { SILENCE_MS = 100 };

enum { SIZE = 4096, OFFSET = 512 };

static uint8_t profile[CHILDBUS_PROFILE_BYTES] = {
    CHILDBUS_RS485, 7, 1, 2, 3, 3,                       /* type 7, revisions 1 and 2, bootloader 3, serial of 3 bytes */
    0, 0,                                                /* page: as main is told */
    0, 0, 0, 0,                                          /* M: as main is told */
    SIZE & 0xff, SIZE >> 8, 0, 0,                        /* S */
    OFFSET & 0xff, OFFSET >> 8, 0, 0,                    /* O */
    'Q', 'R', 'S',
};
static uint8_t state[CHILDBUS_STATE_BYTES];
static uint8_t tally[CHILDBUS_TALLY_BYTES];
static uint8_t flash[OFFSET + SIZE];

static void fail(const char *what)
{
    perror(what);
    exit(1);
}

static void log_bytes(const char *before, const uint8_t *bytes, size_t len)
{
    fprintf(stderr, "%s", before);
    for (size_t i = 0; i < len; i++)
        fprintf(stderr, " %02x", bytes[i]);
}

static unsigned counter(size_t at)
{
    return tally[at] | (unsigned)tally[at + 1] << 8;
}

static void log_tally(void)
{
    fprintf(stderr, "tally: short %u, long %u, CRC %u, foreign %u, answered %u\n", counter(CHILDBUS_TALLY_SHORT),
            counter(CHILDBUS_TALLY_LONG), counter(CHILDBUS_TALLY_CRC), counter(CHILDBUS_TALLY_FOREIGN),
            counter(CHILDBUS_TALLY_ANSWERED));
}

static void serve(int line, const uint8_t *frame, size_t len)
{
    uint8_t reply[CHILDBUS_FRAME_MAX];
    uint64_t made;
    uint32_t number = childbus_receive_tally(profile, sizeof profile, state, sizeof state, 0, frame, len, flash, sizeof flash,
                                             reply, sizeof reply, tally, sizeof tally, &made);
    if (number != CHILDBUS_MADE && !childbus_silent(number)) {
        fprintf(stderr, "refused with number %u\n", (unsigned)number);
        exit(1);
    }
    log_bytes("received", frame, len);
    if (number == CHILDBUS_MADE)
        log_bytes(" answered", reply, made);
    else
        fprintf(stderr, " silent %u", (unsigned)number);
    fprintf(stderr, "\n");
    for (uint64_t sent = 0; sent < made;) {
        ssize_t n = write(line, reply + sent, made - sent);
        if (n < 0)
            fail("write");
        sent += (size_t)n;
    }
}

int main(int argc, char **argv)
{
    unsigned long longest = argc == 3 ? strtoul(argv[1], NULL, 10) : 0;
    unsigned long page = argc == 3 ? strtoul(argv[2], NULL, 10) : 0;
    if (longest < CHILDBUS_FRAME_MIN || longest > CHILDBUS_FRAME_MAX || (page != CHILDBUS_PAGE && page != CHILDBUS_PAGE_MAX)) {
        fprintf(stderr, "usage: board M PAGE\n");
        return 2;
    }
    profile[CHILDBUS_PROFILE_PAGE] = page == CHILDBUS_PAGE ? CHILDBUS_PAGE_64 : CHILDBUS_PAGE_128;
    profile[CHILDBUS_PROFILE_LONGEST] = (uint8_t)longest;
    profile[CHILDBUS_PROFILE_LONGEST + 1] = (uint8_t)(longest >> 8);

    int line = posix_openpt(O_RDWR | O_NOCTTY);
    if (line < 0 || grantpt(line) != 0 || unlockpt(line) != 0)
        fail("pseudo-terminal");
    const char *name = ptsname(line);
    /* the other end stays open here too: then the line outlives each master */
    int other = open(name, O_RDWR | O_NOCTTY);
    struct termios raw;
    if (other < 0 || tcgetattr(other, &raw) != 0)
        fail(name);
    raw.c_iflag &= ~(tcflag_t)(IGNBRK | BRKINT | PARMRK | ISTRIP | INLCR | IGNCR | ICRNL | IXON);
    raw.c_oflag &= ~(tcflag_t)OPOST;
    raw.c_lflag &= ~(tcflag_t)(ECHO | ECHONL | ICANON | ISIG | IEXTEN);
    raw.c_cflag &= ~(tcflag_t)(CSIZE | PARENB);
    raw.c_cflag |= CS8;
    if (tcsetattr(other, TCSANOW, &raw) != 0)
        fail(name);

    memset(flash, 0xff, sizeof flash);
    if (childbus_fresh(state, sizeof state) != CHILDBUS_MADE)
        fail("childbus_fresh");
    printf("%s\n", name);
    fflush(stdout);

    uint8_t frame[600]; /* bytes past its end are dropped: such a frame is longer than M anyway */
    size_t len = 0;
    for (;;) {
        struct pollfd fds[2] = {{line, POLLIN, 0}, {STDIN_FILENO, POLLIN, 0}};
        int ready = poll(fds, 2, len > 0 ? SILENCE_MS : -1);
        if (ready < 0)
            fail("poll");
        if (ready == 0) { /* silence: the frame has ended */
            serve(line, frame, len);
            len = 0;
        }
        if (fds[0].revents) {
            uint8_t piece[64];
            ssize_t n = read(line, piece, sizeof piece);
            if (n <= 0)
                fail("read");
            size_t room = sizeof frame - len;
            size_t take = (size_t)n < room ? (size_t)n : room;
            memcpy(frame + len, piece, take);
            len += take;
        }
        if (ready > 0 && fds[1].revents) {
            char any;
            if (read(STDIN_FILENO, &any, 1) <= 0) {
                log_tally();
                return 0;
            }
        }
    }
}
