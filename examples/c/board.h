/* An example board over childbus.h: it owns profile, state and flash, and has one function for each event on its bus. */
#ifndef BOARD_H
#define BOARD_H

#include <childbus.h>

/* The bootloader has the first 1,024 bytes of flash, the application the 4,096 behind it: whole pages, of 64 bytes and of 128. */
enum { BOARD_OFFSET = 1024, BOARD_SIZE = 4096, BOARD_LONGEST = 64 };

struct board {
    uint8_t profile[CHILDBUS_PROFILE_BYTES];
    uint8_t state[CHILDBUS_STATE_BYTES];
    uint8_t flash[BOARD_OFFSET + BOARD_SIZE];
    uint8_t reply[BOARD_LONGEST];
    uint8_t tally[CHILDBUS_TALLY_BYTES]; /* for the service screen; cleared at power-up, and by no reset */
    uint32_t number;                     /* what the library answered to the last frame */
    uint32_t silence;                    /* why it got no reply: CHILDBUS_SILENCE_NONE if it got one */
    uint32_t lost;                       /* how many accepted bytes it lost */
    uint32_t erased_nothing;             /* it was a finalize, and no page was erased */
    uint32_t pages;                      /* how many pages it changed */
    uint8_t before[CHILDBUS_STATE_BYTES];
    uint8_t earlier[BOARD_OFFSET + BOARD_SIZE]; /* state and flash before the last frame */
};

/* Power-up on a bus (CHILDBUS_I2C or CHILDBUS_RS485) with pages of a size (CHILDBUS_PAGE_64 or CHILDBUS_PAGE_128), with empty flash
 * behind the bootloader. */
void board_power_up(struct board *board, uint32_t bus, uint32_t page);

/* The bytes of its pages. */
unsigned board_page(const struct board *board);

/* A frame has arrived: on RS485 at a silence (address: 0), on I2C at the stop of a write to address. Answers how many bytes
 * of board->reply are to be sent now; none on I2C, where the master reads. */
uint64_t board_frame(struct board *board, uint32_t address, const uint8_t *frame, uint64_t len);

/* I2C: the master reads at address. Answers how many bytes of board->reply it gets. */
uint64_t board_read(struct board *board, uint32_t address);

/* A counter of the tally: CHILDBUS_TALLY_SHORT to CHILDBUS_TALLY_ANSWERED. */
unsigned board_counter(const struct board *board, size_t counter);

/* The application has been started. */
int board_running(const struct board *board);

#endif
