/* cases.c as a program of an operating system: `cases CASES OUTPUT STACK`. */
#define _POSIX_C_SOURCE 200809L
#include "machine.h"
#include <fcntl.h>
#include <stdio.h>
#include <unistd.h>

int machine_open(const char *name, int to_write)
{
    return to_write ? open(name, O_WRONLY | O_CREAT | O_TRUNC, 0666) : open(name, O_RDONLY);
}

size_t machine_read(int file, void *bytes, size_t len)
{
    ssize_t got = read(file, bytes, len);
    return got < 0 ? 0 : (size_t)got;
}

int machine_write(int file, const void *bytes, size_t len)
{
    return write(file, bytes, len) == (ssize_t)len ? 0 : FAILED;
}

void machine_say(const char *text)
{
    fputs(text, stderr);
}

int main(int count, char **words)
{
    if (count != 4) {
        fprintf(stderr, "usage: cases CASES OUTPUT STACK\n");
        return 2;
    }
    return cases(words[1], words[2], words[3]);
}
