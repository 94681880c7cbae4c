/* The jobs: their inputs, and the loops that are measured. All sides have the same loops. */
#include "jobs.h"

#include <stdio.h>
#include <stdlib.h>
#include <string.h>

#define GROWTH(bus, frame)                                                                                                \
    {UPLOAD_FIRST, bus, frame, 1024, 64}, {UPLOAD_FIRST, bus, frame, 2048, 64}, {UPLOAD_FIRST, bus, frame, 4096, 64},     \
        {UPLOAD_FIRST, bus, frame, 8192, 64}, {UPLOAD_FIRST, bus, frame, 16384, 64}, {UPLOAD_FIRST, bus, frame, 32768, 64}

#define EACH_FRAME(bus, frame)                                                                                            \
    {UPLOAD_FIRST, bus, frame, FLASH, 64}, {UPLOAD_REPEATED, bus, frame, FLASH, 64}, {READ_BACK, bus, frame, FLASH, 64},  \
        {ENCODE_WRITE, bus, frame, FLASH, 64}, {DECODE_FULL, bus, frame, 500, 64}, {UPLOAD_TALLY, bus, frame, FLASH, 64}, \
        {UPLOAD_FIRST, bus, frame, FLASH_128, 128}, {UPLOAD_REPEATED, bus, frame, FLASH_128, 128}

const struct job job_list[] = {
    EACH_FRAME(PLAIN_I2C, 32),
    EACH_FRAME(PLAIN_I2C, 256),
    EACH_FRAME(PLAIN_RS485, 32),
    EACH_FRAME(PLAIN_RS485, 256),
    {READ_REPLY, PLAIN_I2C, 32, 2000, 64},
    {READ_REPLY, PLAIN_I2C, 256, 2000, 64},
    {ENCODE_SHORT, PLAIN_I2C, 256, 2000, 64},
    {ENCODE_SHORT, PLAIN_RS485, 256, 2000, 64},
    {DECODE_SHORT, PLAIN_I2C, 256, 2000, 64},
    {DECODE_SHORT, PLAIN_RS485, 256, 2000, 64},
    {TWO_READS, PLAIN_I2C, 256, 500, 64},
    {DROPPED, PLAIN_RS485, 32, 2000, 64},
    {DROPPED, PLAIN_RS485, 256, 2000, 64},
    {UPLOAD_END, PLAIN_I2C, 256, 1024, 64},
    {UPLOAD_END, PLAIN_I2C, 256, FLASH, 64},
    {PAGES_CHANGED, PLAIN_I2C, 256, FLASH, 64},
    {PAGES_CHANGED, PLAIN_I2C, 256, FLASH_128, 128},
    GROWTH(PLAIN_I2C, 32),
    GROWTH(PLAIN_I2C, 256),
    GROWTH(PLAIN_RS485, 32),
    GROWTH(PLAIN_RS485, 256),
};
const size_t job_count = sizeof job_list / sizeof job_list[0];

struct boards boards;
struct input inputs[3000];
size_t input_count;
uint8_t pool[140000];

static size_t pool_len;
static uint8_t image[FLASH];
static volatile size_t sink;

const char *kind_name(enum kind kind)
{
    static const char *const names[] = {"upload-first", "upload-repeated", "upload-tally", "dropped",
                                        "read-back",    "read-reply",      "encode-write", "encode-short",
                                        "decode-full",  "decode-short",    "two-reads",    "upload-end",
                                        "pages-changed"};
    return names[kind];
}

static void must(bool good)
{
    if (!good) {
        fprintf(stderr, "bench: the inputs can't be made\n");
        exit(1);
    }
}

/* Adds a request as a frame for the board. */
static void add_frame(const struct job *job, uint32_t code, uint32_t a, uint32_t b, const uint8_t *data, size_t len)
{
    struct input *in = &inputs[input_count++];
    *in = (struct input){code, a, b, pool_len, 0};
    must(input_count <= sizeof inputs / sizeof inputs[0] && pool_len + job->frame <= sizeof pool);
    must(plain_encode(job->bus, job->frame, code, ADDRESS, a, b, data, len, pool + pool_len, job->frame, &in->len) == 0);
    pool_len += in->len;
}

/* Adds arguments for the encoder, and data. */
static void add_request(uint32_t code, uint32_t a, uint32_t b, const uint8_t *data, size_t len)
{
    inputs[input_count++] = (struct input){code, a, b, pool_len, len};
    must(input_count <= sizeof inputs / sizeof inputs[0] && pool_len + len <= sizeof pool);
    memcpy(pool + pool_len, data, len);
    pool_len += len;
}

/* Adds a reply for the decoder: what a plain board answers to the request. The length asked is in b. */
static void add_reply(const struct job *job, uint32_t code, uint32_t a, uint32_t b)
{
    uint8_t frame[256];
    size_t len;
    struct input *in = &inputs[input_count++];
    *in = (struct input){code, a, b, pool_len, 0};
    must(input_count <= sizeof inputs / sizeof inputs[0] && pool_len + 256 <= sizeof pool);
    must(plain_encode(job->bus, job->frame, code, ADDRESS, a, b, image, 0, frame, sizeof frame, &len) == 0);
    must(plain_receive(&boards.plain_profile, &boards.plain_state, ADDRESS, frame, len, boards.flash[PLAIN], FLASH,
                       pool + pool_len, 256, &in->len) == 0);
    pool_len += in->len;
}

/* Adds a frame of len bytes to an address: zeros, and a right check sum that is then damaged or not. */
static void add_dropped(size_t len, uint8_t address, uint8_t damage)
{
    uint8_t *frame = pool + pool_len;
    inputs[input_count++] = (struct input){0, 0, 0, pool_len, len};
    must(input_count <= sizeof inputs / sizeof inputs[0] && pool_len + len <= sizeof pool);
    memset(frame, 0, len);
    frame[0] = address;
    uint16_t crc = plain_crc16(frame, len - 2);
    frame[len - 2] = (uint8_t)crc;
    frame[len - 1] = (uint8_t)(crc >> 8) ^ damage;
    pool_len += len;
}

static void put32(uint8_t *out, uint32_t value)
{
    for (int i = 0; i < 4; i++)
        out[i] = (uint8_t)(value >> 8 * i);
}

static void make_profiles(const struct job *job)
{
    static const uint8_t serial[4] = {0x51, 0x52, 0x53, 0x54};
    struct plain_profile *p = &boards.plain_profile;
    *p = (struct plain_profile){.bus = (uint8_t)job->bus, .hardware = 7, .compatible = 1, .actual = 2, .bootloader = 3,
                                .serial_len = sizeof serial, .page = job->page, .longest = job->frame,
                                .size = job->page == 128 ? FLASH_128 : FLASH, .offset = 0};
    memcpy(p->serial, serial, sizeof serial);

    memset(boards.profile, 0, sizeof boards.profile);
    boards.profile[CHILDBUS_PROFILE_BUS] = p->bus;
    boards.profile[CHILDBUS_PROFILE_HARDWARE] = p->hardware;
    boards.profile[CHILDBUS_PROFILE_COMPATIBLE] = p->compatible;
    boards.profile[CHILDBUS_PROFILE_ACTUAL] = p->actual;
    boards.profile[CHILDBUS_PROFILE_BOOTLOADER] = p->bootloader;
    boards.profile[CHILDBUS_PROFILE_SERIAL_LENGTH] = p->serial_len;
    boards.profile[CHILDBUS_PROFILE_PAGE] = p->page == 128 ? CHILDBUS_PAGE_128 : CHILDBUS_PAGE_64;
    put32(boards.profile + CHILDBUS_PROFILE_LONGEST, p->longest);
    put32(boards.profile + CHILDBUS_PROFILE_SIZE, p->size);
    put32(boards.profile + CHILDBUS_PROFILE_OFFSET, p->offset);
    memcpy(boards.profile + CHILDBUS_PROFILE_SERIAL, serial, sizeof serial);
}

void make_inputs(const struct job *job)
{
    static const uint8_t short_codes[] = {0x00, 0x01, 0x03, 0x04, 0x07, 0x08, 0x09, 0x0c};
    uint32_t data_max = job->frame - (job->bus == PLAIN_I2C ? 4 : 6);
    uint32_t read_max = job->frame - (job->bus == PLAIN_I2C ? 3 : 5);
    uint32_t seed = 1;

    input_count = 0;
    pool_len = 0;
    for (size_t i = 0; i < FLASH; i++) {
        seed = seed * 1664525 + 1013904223;
        image[i] = (uint8_t)(seed >> 24);
    }
    make_profiles(job);
    plain_fresh(&boards.plain_state);
    memcpy(boards.flash[PLAIN], image, FLASH);

    switch (job->kind) {
    case UPLOAD_FIRST:
    case UPLOAD_REPEATED:
    case UPLOAD_TALLY:
    case ENCODE_WRITE:
        for (uint32_t at = 0; at < job->amount; at += data_max) {
            uint32_t n = job->amount - at < data_max ? job->amount - at : data_max;
            if (job->kind == ENCODE_WRITE)
                add_request(0x06, at, 0, image + at, n);
            else
                add_frame(job, 0x06, at, 0, image + at, n);
        }
        if (job->kind != ENCODE_WRITE)
            add_frame(job, 0x07, 0, 0, image, 0);
        break;
    case DROPPED: /* in the order of their numbers */
        add_dropped(3, ADDRESS, 0);
        add_dropped(job->frame + 1, ADDRESS, 0);
        add_dropped(job->frame, ADDRESS, 1);
        add_dropped(job->frame, ADDRESS + 8, 0);
        must(input_count == DROPS);
        break;
    case READ_BACK:
        for (uint32_t at = 0; at < job->amount; at += read_max)
            add_frame(job, 0x08, at, job->amount - at < read_max ? job->amount - at : read_max, image, 0);
        break;
    case READ_REPLY:
        add_frame(job, 0x08, 0, read_max, image, 0);
        break;
    case ENCODE_SHORT:
        for (uint32_t i = 0; i < job->amount; i++)
            add_request(short_codes[i % sizeof short_codes], 9, 7, image, 0);
        break;
    case DECODE_FULL:
        for (uint32_t i = 0; i < job->amount; i++)
            add_reply(job, 0x08, i, read_max);
        break;
    case DECODE_SHORT:
        for (uint32_t i = 0; i < job->amount; i++) {
            plain_fresh(&boards.plain_state);
            add_reply(job, short_codes[i % sizeof short_codes], 9, 7);
        }
        break;
    case TWO_READS:
        /* one right reply, then its damaged twin */
        add_reply(job, 0x08, 0, read_max);
        inputs[input_count] = inputs[0];
        inputs[input_count].at = pool_len;
        memcpy(pool + pool_len, pool, inputs[0].len);
        pool[pool_len + inputs[0].len / 2] ^= 0x10;
        pool_len += inputs[0].len;
        input_count++;
        break;
    case UPLOAD_END:
        add_request(0, 0, 0, image, job->amount);
        break;
    case PAGES_CHANGED: /* the first has the flash before */
        for (uint32_t page = 0; page < job->amount / job->page; page++)
            add_request(0, page, 0, image, page == 0 ? FLASH : 0);
        break;
    }
}

/* The loops. Each call's answer goes into a sum, so that none can be left out. */

static size_t board_library(const struct job *job)
{
    size_t sum = 0;
    for (size_t i = 0; i < input_count; i++) {
        size_t made;
        sum += childbus_receive(boards.profile, sizeof boards.profile, boards.state, sizeof boards.state, ADDRESS,
                                pool + inputs[i].at, inputs[i].len, boards.flash[LIBRARY], FLASH, boards.out[LIBRARY],
                                job->frame, &made);
        sum += made;
    }
    return sum;
}

/* The call number i of a job by the calls that count: its frame. */
static const struct input *counted_input(const struct job *job, size_t i)
{
    return &inputs[job->kind == DROPPED ? i % DROPS : i];
}

static size_t counted_calls(const struct job *job)
{
    return job->kind == DROPPED ? job->amount : input_count;
}

static size_t tally_library(const struct job *job)
{
    size_t sum = 0;
    for (size_t i = 0; i < counted_calls(job); i++) {
        const struct input *in = counted_input(job, i);
        size_t made;
        sum += childbus_receive_tally(boards.profile, sizeof boards.profile, boards.state, sizeof boards.state, ADDRESS,
                                      pool + in->at, in->len, boards.flash[LIBRARY], FLASH, boards.out[LIBRARY],
                                      job->frame, boards.tally, sizeof boards.tally, &made);
        sum += made;
    }
    return sum;
}

static size_t read_library(const struct job *job)
{
    size_t sum = 0;
    for (uint32_t i = 0; i < job->amount; i++) {
        size_t made;
        sum += childbus_read(boards.profile, sizeof boards.profile, boards.state, sizeof boards.state, ADDRESS,
                             boards.flash[LIBRARY], FLASH, boards.out[LIBRARY], job->frame, &made);
        sum += made;
    }
    return sum;
}

static size_t encode_library(const struct job *job)
{
    size_t sum = 0;
    for (size_t i = 0; i < input_count; i++) {
        size_t made;
        sum += childbus_encode(job->bus, job->frame, inputs[i].code, ADDRESS, inputs[i].a, inputs[i].b,
                               pool + inputs[i].at, inputs[i].len, boards.out[LIBRARY], job->frame, &made);
        sum += made;
    }
    return sum;
}

static size_t decode_library(const struct job *job)
{
    size_t sum = 0;
    for (size_t i = 0; i < input_count; i++) {
        uint32_t status;
        size_t start, len;
        sum += childbus_decode(job->bus, inputs[i].code, ADDRESS, inputs[i].b, pool + inputs[i].at, inputs[i].len,
                               &status, &start, &len);
        sum += status + start + len;
    }
    return sum;
}

static size_t two_library(const struct job *job)
{
    size_t sum = 0;
    for (uint32_t i = 0; i < job->amount; i++) {
        size_t start, len;
        sum += childbus_two_reads(inputs[0].code, inputs[0].b, pool + inputs[1].at, inputs[1].len, pool + inputs[0].at,
                                  inputs[0].len, &start, &len);
        sum += start + len;
    }
    return sum;
}

static size_t end_library(void)
{
    return childbus_upload_end(boards.profile, sizeof boards.profile, pool, inputs[0].len, boards.flash[LIBRARY], FLASH,
                               boards.flash[LIBRARY], FLASH);
}

static size_t pages_library(void)
{
    size_t sum = 0;
    for (size_t i = 0; i < input_count; i++)
        sum += childbus_page_changed(boards.profile, sizeof boards.profile, inputs[i].a, pool, FLASH, boards.flash[LIBRARY], FLASH);
    return sum;
}

static size_t run_library(const struct job *job)
{
    switch (job->kind) {
    case UPLOAD_FIRST:
    case UPLOAD_REPEATED:
    case READ_BACK:
        return board_library(job);
    case UPLOAD_TALLY:
    case DROPPED:
        return tally_library(job);
    case READ_REPLY:
        return read_library(job);
    case ENCODE_WRITE:
    case ENCODE_SHORT:
        return encode_library(job);
    case DECODE_FULL:
    case DECODE_SHORT:
        return decode_library(job);
    case UPLOAD_END:
        return end_library();
    case PAGES_CHANGED:
        return pages_library();
    default: /* TWO_READS */
        return two_library(job);
    }
}

/* The loops of the plain C, for each of its builds. */
#define CALL(name) plain_##name
#define LOOP(name) name##_plain
#include "loops.h"
#undef CALL
#undef LOOP
#define CALL(name) plain256_##name
#define LOOP(name) name##_plain256
#include "loops.h"

void run_job(const struct job *job, enum side side)
{
    sink = side == LIBRARY ? run_library(job) : side == PLAIN ? run_plain(job) : run_plain256(job);
}

void set_up(const struct job *job, enum side side)
{
    enum side own = side == LIBRARY ? LIBRARY : PLAIN; /* whose memory */
    memset(boards.out[own], 0xa5, sizeof boards.out[own]);
    if (side == LIBRARY) {
        must(childbus_fresh(boards.state, sizeof boards.state) == 0);
        memset(boards.tally, 0, sizeof boards.tally);
    } else {
        plain_fresh(&boards.plain_state);
        boards.plain_tally = (struct plain_tally){0};
    }
    if (job->kind == READ_BACK || job->kind == READ_REPLY || job->kind == UPLOAD_END || job->kind == PAGES_CHANGED)
        memcpy(boards.flash[own], image, FLASH);
    else
        memset(boards.flash[own], 0xff, FLASH);

    /* a repeated upload has the upload behind it, a kept reply its request */
    if (job->kind == UPLOAD_REPEATED || job->kind == READ_REPLY)
        sink = side == LIBRARY ? board_library(job) : side == PLAIN ? board_plain(job) : board_plain256(job);
}
