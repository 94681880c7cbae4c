/*
 * A board and a master of the Childbus bootloader protocol in plain C: what the library is measured against.
 * Same rules and same numbers as childbus.h; profile, state and tally are structs. Check sums by half bytes.
 *
 * plain.c is compiled twice. With WHOLE_BYTES defined check sums go by whole bytes, with tables of 256 entries, and the functions'
 * names begin with plain256_ instead of plain_.
 */
#ifndef PLAIN_H
#define PLAIN_H

#include <stdbool.h>
#include <stddef.h>
#include <stdint.h>

#ifdef WHOLE_BYTES
#define plain_crc8 plain256_crc8
#define plain_crc16 plain256_crc16
#define plain_fresh plain256_fresh
#define plain_receive plain256_receive
#define plain_receive_tally plain256_receive_tally
#define plain_read plain256_read
#define plain_encode plain256_encode
#define plain_general plain256_general
#define plain_decode plain256_decode
#define plain_two_reads plain256_two_reads
#define plain_version plain256_version
#define plain_upload_end plain256_upload_end
#define plain_page_changed plain256_page_changed
#endif

enum plain_bus { PLAIN_I2C = 0, PLAIN_RS485 = 1 };

enum { PLAIN_PAGE_MIN = 64, PLAIN_PAGE_MAX = 128, PLAIN_FRAME_MIN = 32, PLAIN_FRAME_MAX = 256 };
enum { PLAIN_FLASH_MIN = 64, PLAIN_FLASH_MAX = 65472, PLAIN_SERIAL_MAX = 16 };

struct plain_profile {
    uint8_t bus;
    uint8_t hardware;
    uint8_t compatible;
    uint8_t actual;
    uint8_t bootloader;
    uint8_t serial_len;
    uint32_t page;    /* bytes of a flash page: 64 or 128 */
    uint32_t longest; /* M */
    uint32_t size;    /* S */
    uint32_t offset;  /* O */
    uint8_t serial[PLAIN_SERIAL_MAX];
};

struct plain_state {
    bool has_address; /* false: default range */
    uint8_t address;
    bool running;
    uint32_t next;
    uint32_t w;
    uint32_t count;
    uint32_t reply_len;
    uint8_t waiting[PLAIN_PAGE_MAX];
    uint8_t reply[PLAIN_FRAME_MAX];
};

/* Received frames answered 15, 16, 17, 18 and 0; each counter stops at 65535. */
struct plain_tally {
    uint16_t dropped[4];
    uint16_t answered;
};

uint8_t plain_crc8(const uint8_t *bytes, size_t len);
uint16_t plain_crc16(const uint8_t *bytes, size_t len);

void plain_fresh(struct plain_state *s);

uint32_t plain_receive(const struct plain_profile *p, struct plain_state *s, uint32_t address, const uint8_t *frame,
                       size_t frame_len, uint8_t *flash, size_t flash_len, uint8_t *out, size_t out_len, size_t *made);

/* The same, counted in the tally. */
uint32_t plain_receive_tally(const struct plain_profile *p, struct plain_state *s, uint32_t address, const uint8_t *frame,
                             size_t frame_len, uint8_t *flash, size_t flash_len, uint8_t *out, size_t out_len,
                             struct plain_tally *tally, size_t *made);

uint32_t plain_read(const struct plain_profile *p, const struct plain_state *s, uint32_t address, size_t flash_len,
                    uint8_t *out, size_t out_len, size_t *made);

uint32_t plain_encode(uint32_t bus, uint32_t longest, uint32_t code, uint32_t destination, uint32_t a, uint32_t b,
                      const uint8_t *data, size_t data_len, uint8_t *out, size_t out_len, size_t *made);

uint32_t plain_general(uint32_t bus, uint32_t longest, uint32_t reset, uint8_t *out, size_t out_len, size_t *made);

uint32_t plain_decode(uint32_t bus, uint32_t code, uint32_t address, uint32_t asked, const uint8_t *reply,
                      size_t reply_len, uint32_t *status, size_t *start, size_t *len);

uint32_t plain_two_reads(uint32_t code, uint32_t asked, const uint8_t *first, size_t first_len, const uint8_t *second,
                         size_t second_len, size_t *start, size_t *len);

uint32_t plain_version(uint32_t major, uint32_t minor, uint32_t *known_major, uint32_t *known_minor);

uint32_t plain_upload_end(const struct plain_profile *p, const uint8_t *image, size_t image_len, const uint8_t *earlier,
                          size_t earlier_len, const uint8_t *flash, size_t flash_len);

uint32_t plain_page_changed(const struct plain_profile *p, uint32_t page, const uint8_t *earlier, size_t earlier_len,
                            const uint8_t *flash, size_t flash_len);

#ifndef WHOLE_BYTES
extern __typeof__(plain_crc8) plain256_crc8;
extern __typeof__(plain_crc16) plain256_crc16;
extern __typeof__(plain_fresh) plain256_fresh;
extern __typeof__(plain_receive) plain256_receive;
extern __typeof__(plain_receive_tally) plain256_receive_tally;
extern __typeof__(plain_read) plain256_read;
extern __typeof__(plain_encode) plain256_encode;
extern __typeof__(plain_general) plain256_general;
extern __typeof__(plain_decode) plain256_decode;
extern __typeof__(plain_two_reads) plain256_two_reads;
extern __typeof__(plain_version) plain256_version;
extern __typeof__(plain_upload_end) plain256_upload_end;
extern __typeof__(plain_page_changed) plain256_page_changed;
#endif

#endif
