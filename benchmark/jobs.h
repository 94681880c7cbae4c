/* What is measured: a job is a list of calls with prepared inputs, run through the library or through the plain C. */
#ifndef JOBS_H
#define JOBS_H

#include "childbus.h"
#include "plain.h"

/* The library, the plain C, and the plain C by tables of 256 entries. */
enum side { LIBRARY, PLAIN, PLAIN_256, SIDES };

enum kind {
    UPLOAD_FIRST,    /* the board receives the writes and a finalize; flash all 0xFF before */
    UPLOAD_REPEATED, /* the same upload once more: no page changes */
    UPLOAD_TALLY,    /* the first upload, each frame counted in the tally */
    DROPPED,         /* RS485 frames that get silence, counted: of 3 bytes, of M + 1, and of M damaged and foreign, in turn */
    READ_BACK,       /* the board receives the reads of what was uploaded */
    READ_REPLY,      /* I2C reads of a kept reply of `frame` bytes */
    ENCODE_WRITE,    /* the master makes the writes of an upload */
    ENCODE_SHORT,    /* the master makes one of each other request, over and over */
    DECODE_FULL,     /* the master takes apart read replies of `frame` bytes */
    DECODE_SHORT,    /* the master takes apart the replies to the short requests */
    TWO_READS,       /* the master gets a damaged and then a right read of a reply of `frame` bytes */
    UPLOAD_END,      /* what the flash holds after an upload that is whole */
    PAGES_CHANGED    /* whether each page of the flash has changed; none has */
};

struct job {
    enum kind kind;
    uint32_t bus;
    uint32_t frame;  /* M */
    uint32_t amount; /* bytes (uploads, read back, ENCODE_WRITE, UPLOAD_END, PAGES_CHANGED), else calls */
    uint32_t page;   /* bytes of the board's pages */
};

/* One prepared call. The bytes are a frame, the data of a write, or a reply. */
struct input {
    uint32_t code, a, b;
    size_t at, len; /* the bytes in the pool */
};

/* A board of the library and one of the plain C, shared by its two builds, and what the calls of each leave. */
struct boards {
    uint8_t profile[CHILDBUS_PROFILE_BYTES];
    uint8_t state[CHILDBUS_STATE_BYTES];
    uint8_t tally[CHILDBUS_TALLY_BYTES];
    struct plain_profile plain_profile;
    struct plain_state plain_state;
    struct plain_tally plain_tally;
    uint8_t flash[2][CHILDBUS_FLASH_MAX]; /* LIBRARY's and PLAIN's */
    uint8_t out[2][CHILDBUS_FRAME_MAX];
};

/* The largest S with pages of 64 bytes, and with pages of 128. */
enum { FLASH = CHILDBUS_FLASH_MAX, FLASH_128 = 65408 };

enum { ADDRESS = 8, DROPS = 4 };

extern struct boards boards;
extern struct input inputs[];
extern size_t input_count;
extern uint8_t pool[];

extern const struct job job_list[];
extern const size_t job_count;

const char *kind_name(enum kind kind);

/* Makes the inputs of a job, by the plain C. */
void make_inputs(const struct job *job);

/* Puts a side's board and buffers where the job begins: not measured. */
void set_up(const struct job *job, enum side side);

/* Runs a job's calls once. */
void run_job(const struct job *job, enum side side);

/* Compares the library with both builds of the plain C on every job's inputs, then on random ones. False, after a message, if
 * they differ. */
bool agree(void);

#endif
