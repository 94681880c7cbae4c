/* The example board; see board.h. */
#include "board.h"

#include <stdio.h>
#include <stdlib.h>
#include <string.h>

static void put32(uint8_t *out, uint32_t value)
{
    for (int i = 0; i < 4; i++)
        out[i] = (uint8_t)(value >> 8 * i);
}

/* 2 to 5 mean that the firmware itself is wrong: its profile, its buffers or its state. 15 to 18 don't: frames that are cut, damaged
 * or meant for another board are everyday silence on a shared line, like 1. */
static void stop_if_refused(uint32_t number)
{
    if (number != CHILDBUS_MADE && !childbus_silent(number)) {
        fprintf(stderr, "board: refused with number %u\n", (unsigned)number);
        exit(1);
    }
}

void board_power_up(struct board *board, uint32_t bus, uint32_t page)
{
    static const uint8_t serial[] = {'L', 'A', 'M', 'P', '0', '1'};
    uint8_t *p = board->profile;

    memset(p, 0, CHILDBUS_PROFILE_BYTES);
    p[CHILDBUS_PROFILE_BUS] = (uint8_t)bus;
    p[CHILDBUS_PROFILE_HARDWARE] = 7;
    p[CHILDBUS_PROFILE_COMPATIBLE] = 1;
    p[CHILDBUS_PROFILE_ACTUAL] = 2;
    p[CHILDBUS_PROFILE_BOOTLOADER] = 3;
    p[CHILDBUS_PROFILE_SERIAL_LENGTH] = sizeof serial;
    p[CHILDBUS_PROFILE_PAGE] = (uint8_t)page;
    put32(p + CHILDBUS_PROFILE_LONGEST, BOARD_LONGEST);
    put32(p + CHILDBUS_PROFILE_SIZE, BOARD_SIZE);
    put32(p + CHILDBUS_PROFILE_OFFSET, BOARD_OFFSET);
    memcpy(p + CHILDBUS_PROFILE_SERIAL, serial, sizeof serial);

    memset(board->flash, 0xb0, BOARD_OFFSET); /* the bootloader */
    memset(board->flash + BOARD_OFFSET, 0xff, BOARD_SIZE);
    memset(board->tally, 0, sizeof board->tally);
    stop_if_refused(childbus_fresh(board->state, sizeof board->state));
}

unsigned board_page(const struct board *board)
{
    return board->profile[CHILDBUS_PROFILE_PAGE] == CHILDBUS_PAGE_64 ? CHILDBUS_PAGE : CHILDBUS_PAGE_MAX;
}

/* What must not be missed of the last frame, for the service screen. */
static void look(struct board *board, uint32_t address, const uint8_t *frame, uint64_t len, uint64_t made)
{
    const uint8_t *p = board->profile;
    board->silence = childbus_silence(p, sizeof board->profile, board->before, sizeof board->before, address, frame, len,
                                      board->number);
    board->lost = childbus_lost(p, sizeof board->profile, board->before, sizeof board->before, board->state, sizeof board->state, board->flash,
                                sizeof board->flash);
    board->erased_nothing = childbus_erased_nothing(p, sizeof board->profile, frame, len, board->number, board->reply, made, board->state,
                                                    sizeof board->state);
    board->pages = 0;
    for (uint32_t page = 0; page < BOARD_SIZE / board_page(board); page++)
        board->pages += childbus_page_changed(p, sizeof board->profile, page, board->earlier, sizeof board->earlier, board->flash,
                                              sizeof board->flash);
}

uint64_t board_frame(struct board *board, uint32_t address, const uint8_t *frame, uint64_t len)
{
    uint64_t made;
    memcpy(board->before, board->state, sizeof board->before);
    memcpy(board->earlier, board->flash, sizeof board->earlier);
    board->number = childbus_receive_tally(board->profile, sizeof board->profile, board->state, sizeof board->state,
                                           address, frame, len, board->flash, sizeof board->flash, board->reply,
                                           sizeof board->reply, board->tally, sizeof board->tally, &made);
    stop_if_refused(board->number);
    look(board, address, frame, len, made);
    return board->profile[CHILDBUS_PROFILE_BUS] == CHILDBUS_RS485 ? made : 0;
}

uint64_t board_read(struct board *board, uint32_t address)
{
    uint64_t made;
    uint32_t number = childbus_read(board->profile, sizeof board->profile, board->state, sizeof board->state, address,
                                    board->flash, sizeof board->flash, board->reply, sizeof board->reply, &made);
    stop_if_refused(number);
    return made;
}

unsigned board_counter(const struct board *board, size_t counter)
{
    return board->tally[counter] | (unsigned)board->tally[counter + 1] << 8;
}

int board_running(const struct board *board)
{
    return board->state[CHILDBUS_STATE_RUNNING];
}
