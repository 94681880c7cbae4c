/* The line to the board, from outside: a terminal, its bytes as they are. Include it once in a program. */
#ifndef LINE_H
#define LINE_H

#include <fcntl.h>
#include <poll.h>
#include <stdbool.h>
#include <stdint.h>
#include <stdio.h>
#include <stdlib.h>
#include <termios.h>
#include <unistd.h>

/* How long to wait for what must come. */
enum { PATIENCE_MS = 10000 };

static int line_open(const char *tty)
{
    int line = open(tty, O_RDWR | O_NOCTTY);
    struct termios raw;
    if (line < 0 || tcgetattr(line, &raw) != 0) {
        perror(tty);
        exit(1);
    }
    raw.c_iflag &= ~(tcflag_t)(IGNBRK | BRKINT | PARMRK | ISTRIP | INLCR | IGNCR | ICRNL | IXON);
    raw.c_oflag &= ~(tcflag_t)OPOST;
    raw.c_lflag &= ~(tcflag_t)(ECHO | ECHONL | ICANON | ISIG | IEXTEN);
    raw.c_cflag &= ~(tcflag_t)(CSIZE | PARENB);
    raw.c_cflag |= CS8;
    if (tcsetattr(line, TCSANOW, &raw) != 0) {
        perror(tty);
        exit(1);
    }
    return line;
}

static void line_send(int line, const uint8_t *bytes, size_t len)
{
    if (write(line, bytes, len) != (ssize_t)len) {
        perror("write");
        exit(1);
    }
}

/* Whether a byte comes within this time. */
static bool line_ready(int line, int ms)
{
    struct pollfd fd = {line, POLLIN, 0};
    return poll(&fd, 1, ms) > 0;
}

/* Takes len bytes, or fewer where the next doesn't come within PATIENCE_MS; answers how many came. */
static size_t line_take(int line, uint8_t *bytes, size_t len)
{
    size_t n = 0;
    while (n < len && line_ready(line, PATIENCE_MS)) {
        ssize_t more = read(line, bytes + n, len - n);
        if (more <= 0) {
            perror("read");
            exit(1);
        }
        n += (size_t)more;
    }
    return n;
}

#endif
