/* A board and a master in plain C; see plain.h. */
#include "plain.h"

#include <string.h>

/* Why an RS485 frame got silence. */
enum { FRAME_SHORT = 15, FRAME_LONG = 16, FRAME_CRC_WRONG = 17, FRAME_FOREIGN = 18 };

enum { OK = 0, NOT_SUPPORTED = 2, INVALID_TRANSFER = 3, INVALID_CRC = 4, INVALID_ARGUMENTS = 5 };

enum {
    VERSION = 0x00,
    SET_ADDRESS = 0x01,
    HARDWARE_INFO = 0x03,
    SERIAL = 0x04,
    START = 0x05,
    WRITE = 0x06,
    FINALIZE = 0x07,
    READ = 0x08,
    REVISION = 0x09,
    LONGEST = 0x0c,
    COMMANDS = 0x0f
};

/* One row per code: served, shortest and longest argument count. */
static const struct {
    uint8_t served, shortest, longest;
} rows[COMMANDS] = {
    [VERSION] = {1, 0, 0}, [SET_ADDRESS] = {1, 2, 2}, [HARDWARE_INFO] = {1, 0, 0}, [SERIAL] = {1, 0, 0},
    [START] = {1, 0, 0},   [WRITE] = {1, 2, 254},     [FINALIZE] = {1, 0, 0},      [READ] = {1, 3, 3},
    [REVISION] = {1, 0, 0}, [LONGEST] = {1, 0, 0},
};

static bool served(uint32_t code)
{
    return code < COMMANDS && rows[code].served;
}

/* A new address that no board takes. */
static bool reserved(uint32_t bus, uint32_t a)
{
    return bus == PLAIN_I2C ? a < 8 || a > 119 : a == 0 || a > 247;
}

#ifdef WHOLE_BYTES
/* Check sums by whole bytes: entry i is the register after eight bits, from i in the byte that leaves. */
static const uint8_t crc8_table[256] = {
    0x00, 0x07, 0x0e, 0x09, 0x1c, 0x1b, 0x12, 0x15, 0x38, 0x3f, 0x36, 0x31, 0x24, 0x23, 0x2a, 0x2d,
    0x70, 0x77, 0x7e, 0x79, 0x6c, 0x6b, 0x62, 0x65, 0x48, 0x4f, 0x46, 0x41, 0x54, 0x53, 0x5a, 0x5d,
    0xe0, 0xe7, 0xee, 0xe9, 0xfc, 0xfb, 0xf2, 0xf5, 0xd8, 0xdf, 0xd6, 0xd1, 0xc4, 0xc3, 0xca, 0xcd,
    0x90, 0x97, 0x9e, 0x99, 0x8c, 0x8b, 0x82, 0x85, 0xa8, 0xaf, 0xa6, 0xa1, 0xb4, 0xb3, 0xba, 0xbd,
    0xc7, 0xc0, 0xc9, 0xce, 0xdb, 0xdc, 0xd5, 0xd2, 0xff, 0xf8, 0xf1, 0xf6, 0xe3, 0xe4, 0xed, 0xea,
    0xb7, 0xb0, 0xb9, 0xbe, 0xab, 0xac, 0xa5, 0xa2, 0x8f, 0x88, 0x81, 0x86, 0x93, 0x94, 0x9d, 0x9a,
    0x27, 0x20, 0x29, 0x2e, 0x3b, 0x3c, 0x35, 0x32, 0x1f, 0x18, 0x11, 0x16, 0x03, 0x04, 0x0d, 0x0a,
    0x57, 0x50, 0x59, 0x5e, 0x4b, 0x4c, 0x45, 0x42, 0x6f, 0x68, 0x61, 0x66, 0x73, 0x74, 0x7d, 0x7a,
    0x89, 0x8e, 0x87, 0x80, 0x95, 0x92, 0x9b, 0x9c, 0xb1, 0xb6, 0xbf, 0xb8, 0xad, 0xaa, 0xa3, 0xa4,
    0xf9, 0xfe, 0xf7, 0xf0, 0xe5, 0xe2, 0xeb, 0xec, 0xc1, 0xc6, 0xcf, 0xc8, 0xdd, 0xda, 0xd3, 0xd4,
    0x69, 0x6e, 0x67, 0x60, 0x75, 0x72, 0x7b, 0x7c, 0x51, 0x56, 0x5f, 0x58, 0x4d, 0x4a, 0x43, 0x44,
    0x19, 0x1e, 0x17, 0x10, 0x05, 0x02, 0x0b, 0x0c, 0x21, 0x26, 0x2f, 0x28, 0x3d, 0x3a, 0x33, 0x34,
    0x4e, 0x49, 0x40, 0x47, 0x52, 0x55, 0x5c, 0x5b, 0x76, 0x71, 0x78, 0x7f, 0x6a, 0x6d, 0x64, 0x63,
    0x3e, 0x39, 0x30, 0x37, 0x22, 0x25, 0x2c, 0x2b, 0x06, 0x01, 0x08, 0x0f, 0x1a, 0x1d, 0x14, 0x13,
    0xae, 0xa9, 0xa0, 0xa7, 0xb2, 0xb5, 0xbc, 0xbb, 0x96, 0x91, 0x98, 0x9f, 0x8a, 0x8d, 0x84, 0x83,
    0xde, 0xd9, 0xd0, 0xd7, 0xc2, 0xc5, 0xcc, 0xcb, 0xe6, 0xe1, 0xe8, 0xef, 0xfa, 0xfd, 0xf4, 0xf3,
};

static const uint16_t crc16_table[256] = {
    0x0000, 0xc0c1, 0xc181, 0x0140, 0xc301, 0x03c0, 0x0280, 0xc241, 0xc601, 0x06c0, 0x0780, 0xc741,
    0x0500, 0xc5c1, 0xc481, 0x0440, 0xcc01, 0x0cc0, 0x0d80, 0xcd41, 0x0f00, 0xcfc1, 0xce81, 0x0e40,
    0x0a00, 0xcac1, 0xcb81, 0x0b40, 0xc901, 0x09c0, 0x0880, 0xc841, 0xd801, 0x18c0, 0x1980, 0xd941,
    0x1b00, 0xdbc1, 0xda81, 0x1a40, 0x1e00, 0xdec1, 0xdf81, 0x1f40, 0xdd01, 0x1dc0, 0x1c80, 0xdc41,
    0x1400, 0xd4c1, 0xd581, 0x1540, 0xd701, 0x17c0, 0x1680, 0xd641, 0xd201, 0x12c0, 0x1380, 0xd341,
    0x1100, 0xd1c1, 0xd081, 0x1040, 0xf001, 0x30c0, 0x3180, 0xf141, 0x3300, 0xf3c1, 0xf281, 0x3240,
    0x3600, 0xf6c1, 0xf781, 0x3740, 0xf501, 0x35c0, 0x3480, 0xf441, 0x3c00, 0xfcc1, 0xfd81, 0x3d40,
    0xff01, 0x3fc0, 0x3e80, 0xfe41, 0xfa01, 0x3ac0, 0x3b80, 0xfb41, 0x3900, 0xf9c1, 0xf881, 0x3840,
    0x2800, 0xe8c1, 0xe981, 0x2940, 0xeb01, 0x2bc0, 0x2a80, 0xea41, 0xee01, 0x2ec0, 0x2f80, 0xef41,
    0x2d00, 0xedc1, 0xec81, 0x2c40, 0xe401, 0x24c0, 0x2580, 0xe541, 0x2700, 0xe7c1, 0xe681, 0x2640,
    0x2200, 0xe2c1, 0xe381, 0x2340, 0xe101, 0x21c0, 0x2080, 0xe041, 0xa001, 0x60c0, 0x6180, 0xa141,
    0x6300, 0xa3c1, 0xa281, 0x6240, 0x6600, 0xa6c1, 0xa781, 0x6740, 0xa501, 0x65c0, 0x6480, 0xa441,
    0x6c00, 0xacc1, 0xad81, 0x6d40, 0xaf01, 0x6fc0, 0x6e80, 0xae41, 0xaa01, 0x6ac0, 0x6b80, 0xab41,
    0x6900, 0xa9c1, 0xa881, 0x6840, 0x7800, 0xb8c1, 0xb981, 0x7940, 0xbb01, 0x7bc0, 0x7a80, 0xba41,
    0xbe01, 0x7ec0, 0x7f80, 0xbf41, 0x7d00, 0xbdc1, 0xbc81, 0x7c40, 0xb401, 0x74c0, 0x7580, 0xb541,
    0x7700, 0xb7c1, 0xb681, 0x7640, 0x7200, 0xb2c1, 0xb381, 0x7340, 0xb101, 0x71c0, 0x7080, 0xb041,
    0x5000, 0x90c1, 0x9181, 0x5140, 0x9301, 0x53c0, 0x5280, 0x9241, 0x9601, 0x56c0, 0x5780, 0x9741,
    0x5500, 0x95c1, 0x9481, 0x5440, 0x9c01, 0x5cc0, 0x5d80, 0x9d41, 0x5f00, 0x9fc1, 0x9e81, 0x5e40,
    0x5a00, 0x9ac1, 0x9b81, 0x5b40, 0x9901, 0x59c0, 0x5880, 0x9841, 0x8801, 0x48c0, 0x4980, 0x8941,
    0x4b00, 0x8bc1, 0x8a81, 0x4a40, 0x4e00, 0x8ec1, 0x8f81, 0x4f40, 0x8d01, 0x4dc0, 0x4c80, 0x8c41,
    0x4400, 0x84c1, 0x8581, 0x4540, 0x8701, 0x47c0, 0x4680, 0x8641, 0x8201, 0x42c0, 0x4380, 0x8341,
    0x4100, 0x81c1, 0x8081, 0x4040,
};

uint8_t plain_crc8(const uint8_t *bytes, size_t len)
{
    uint8_t crc = 0xff;
    for (size_t i = 0; i < len; i++)
        crc = crc8_table[crc ^ bytes[i]];
    return crc;
}

uint16_t plain_crc16(const uint8_t *bytes, size_t len)
{
    uint16_t crc = 0xffff;
    for (size_t i = 0; i < len; i++)
        crc = crc >> 8 ^ crc16_table[(crc ^ bytes[i]) & 0xff];
    return crc;
}
#else
/* Check sums by half bytes: entry i is the register after four bits, from i in the half that leaves first. */
static const uint8_t crc8_table[16] = {
    0x00, 0x07, 0x0e, 0x09, 0x1c, 0x1b, 0x12, 0x15, 0x38, 0x3f, 0x36, 0x31, 0x24, 0x23, 0x2a, 0x2d,
};

static const uint16_t crc16_table[16] = {
    0x0000, 0xcc01, 0xd801, 0x1400, 0xf001, 0x3c00, 0x2800, 0xe401,
    0xa001, 0x6c00, 0x7800, 0xb401, 0x5000, 0x9c01, 0x8801, 0x4400,
};

uint8_t plain_crc8(const uint8_t *bytes, size_t len)
{
    uint8_t crc = 0xff;
    for (size_t i = 0; i < len; i++) {
        crc ^= bytes[i];
        crc = (uint8_t)(crc << 4) ^ crc8_table[crc >> 4];
        crc = (uint8_t)(crc << 4) ^ crc8_table[crc >> 4];
    }
    return crc;
}

uint16_t plain_crc16(const uint8_t *bytes, size_t len)
{
    uint16_t crc = 0xffff;
    for (size_t i = 0; i < len; i++) {
        crc ^= bytes[i];
        crc = crc >> 4 ^ crc16_table[crc & 15];
        crc = crc >> 4 ^ crc16_table[crc & 15];
    }
    return crc;
}
#endif

/* Appends the check sum of the first len bytes and gives the whole length. */
static size_t seal(uint32_t bus, uint8_t *frame, size_t len)
{
    if (bus == PLAIN_I2C) {
        frame[len] = plain_crc8(frame, len);
        return len + 1;
    }
    uint16_t crc = plain_crc16(frame, len);
    frame[len] = (uint8_t)crc;
    frame[len + 1] = (uint8_t)(crc >> 8);
    return len + 2;
}

/* Whether the check sum follows the first len bytes. */
static bool sealed(uint32_t bus, const uint8_t *frame, size_t len)
{
    if (bus == PLAIN_I2C)
        return plain_crc8(frame, len) == frame[len];
    return plain_crc16(frame, len) == (frame[len] | frame[len + 1] << 8);
}

static size_t put16(uint8_t *out, uint32_t value)
{
    out[0] = (uint8_t)(value >> 8);
    out[1] = (uint8_t)value;
    return 2;
}

static uint32_t get16(const uint8_t *bytes)
{
    return (uint32_t)bytes[0] << 8 | bytes[1];
}

/* The board. */

void plain_fresh(struct plain_state *s)
{
    memset(s, 0, sizeof *s);
}

/* Numbers 2, 3, 4, 5 in this order; 0 if none. */
static uint32_t refused(const struct plain_profile *p, const struct plain_state *s, size_t flash_len, size_t out_len)
{
    if (p->page != PLAIN_PAGE_MIN && p->page != PLAIN_PAGE_MAX)
        return 2;
    if (p->bus > PLAIN_RS485 || p->longest < PLAIN_FRAME_MIN || p->longest > PLAIN_FRAME_MAX || p->size % p->page ||
        p->size < PLAIN_FLASH_MIN || p->size > PLAIN_FLASH_MAX || p->offset % p->page || p->offset > PLAIN_FLASH_MAX ||
        p->hardware == 0 || p->serial_len > PLAIN_SERIAL_MAX)
        return 2;
    if (flash_len < (size_t)p->offset + p->size)
        return 3;
    if (s->next > p->size || s->w > s->next % p->page || s->count > s->next - s->w || s->reply_len > p->longest ||
        (p->bus == PLAIN_RS485 && s->reply_len))
        return 4;
    if (out_len < p->longest)
        return 5;
    return 0;
}

/* A command to address comes to this board; the general call is no command. */
static bool hears(const struct plain_profile *p, const struct plain_state *s, uint32_t address)
{
    if (address == 0 || (p->bus == PLAIN_I2C && address > 127))
        return false;
    return s->has_address ? address == s->address : address >= 8 && address <= 15;
}

/* Lays the waiting bytes over their page; an unchanged page is not erased. */
static void commit(const struct plain_profile *p, struct plain_state *s, uint8_t *flash)
{
    uint8_t *place = flash + p->offset + s->next - s->w;
    if (memcmp(place, s->waiting, s->w) != 0) {
        memcpy(place, s->waiting, s->w);
        s->count++;
    }
    s->w = 0;
}

static uint8_t write_flash(const struct plain_profile *p, struct plain_state *s, const uint8_t *args, size_t args_len,
                           uint8_t *flash)
{
    uint32_t address = get16(args);
    const uint8_t *data = args + 2;
    size_t left = args_len - 2;
    if ((address != 0 && address != s->next) || address + left > p->size)
        return INVALID_ARGUMENTS;
    if (address == 0) {
        s->next = 0;
        s->w = 0;
        s->count = 0;
    }
    while (left > 0) {
        size_t room = p->page - s->next % p->page;
        size_t n = left < room ? left : room;
        memcpy(s->waiting + s->w, data, n);
        s->w += (uint32_t)n;
        s->next += (uint32_t)n;
        data += n;
        left -= n;
        if (n == room)
            commit(p, s, flash);
    }
    return OK;
}

/* One command. Results go to results, their number to *results_len. False: no reply. */
static bool obey(const struct plain_profile *p, struct plain_state *s, uint8_t code, const uint8_t *args,
                 size_t args_len, uint8_t *flash, uint8_t *status, uint8_t *results, size_t *results_len)
{
    *status = OK;
    *results_len = 0;
    if (!served(code)) {
        *status = NOT_SUPPORTED;
        return true;
    }
    if (args_len < rows[code].shortest || args_len > rows[code].longest) {
        *status = INVALID_ARGUMENTS;
        return true;
    }
    switch (code) {
    case VERSION:
        results[0] = 2;
        results[1] = 2;
        *results_len = 2;
        return true;
    case SET_ADDRESS: {
        uint8_t own = p->bus == PLAIN_I2C ? args[0] & 0x7f : args[0];
        if (args[1] != 0 && args[1] != p->hardware)
            return false;
        if (reserved(p->bus, own)) {
            *status = INVALID_ARGUMENTS;
            return true;
        }
        s->has_address = true;
        s->address = own;
        return true;
    }
    case HARDWARE_INFO:
        results[0] = p->hardware;
        results[1] = p->compatible;
        results[2] = p->bootloader;
        *results_len = 3 + put16(results + 3, p->size);
        return true;
    case SERIAL:
        if (p->serial_len == 0) {
            *status = NOT_SUPPORTED;
            return true;
        }
        memcpy(results, p->serial, p->serial_len);
        *results_len = p->serial_len;
        return true;
    case START:
        s->running = true;
        s->w = 0;
        return false;
    case WRITE:
        *status = write_flash(p, s, args, args_len, flash);
        return true;
    case FINALIZE:
        if (s->w > 0)
            commit(p, s, flash);
        *results_len = put16(results, s->count);
        return true;
    case READ: {
        uint32_t address = get16(args);
        uint32_t len = args[2];
        uint32_t frame = p->bus == PLAIN_I2C ? 3 : 5;
        if (address + len > p->size || len > p->longest - frame) {
            *status = INVALID_ARGUMENTS;
            return true;
        }
        memcpy(results, flash + p->offset + address, len);
        *results_len = len;
        return true;
    }
    case REVISION:
        results[0] = p->actual;
        *results_len = 1;
        return true;
    default: /* LONGEST */
        *results_len = put16(results, p->longest);
        return true;
    }
}

/* Closes a reply whose results are in place; I2C keeps it. */
static uint32_t send(const struct plain_profile *p, struct plain_state *s, uint8_t address, uint8_t status,
                     size_t results_len, uint8_t *out, size_t *made)
{
    size_t at = 0;
    if (p->bus == PLAIN_RS485)
        out[at++] = address;
    out[at++] = status;
    out[at++] = (uint8_t)results_len;
    *made = seal(p->bus, out, at + results_len);
    if (p->bus == PLAIN_I2C) {
        memcpy(s->reply, out, *made);
        s->reply_len = (uint32_t)*made;
    }
    return 0;
}

uint32_t plain_receive(const struct plain_profile *p, struct plain_state *s, uint32_t address, const uint8_t *frame,
                       size_t frame_len, uint8_t *flash, size_t flash_len, uint8_t *out, size_t out_len, size_t *made)
{
    *made = 0;
    uint32_t number = refused(p, s, flash_len, out_len);
    if (number != 0)
        return number;

    bool i2c = p->bus == PLAIN_I2C;
    uint8_t general = 0; /* the general call's code, if it has the exact form */
    if (i2c) {
        if (address == 0 && frame_len == 1)
            general = frame[0] == 0x04 || frame[0] == 0x06 ? frame[0] : 0;
    } else if (frame_len == 4 && frame[0] == 0 && (frame[1] == 0x44 || frame[1] == 0x46) && sealed(PLAIN_RS485, frame, 2)) {
        general = frame[1] & 0x0f;
    }
    if (general == 0x06) {
        plain_fresh(s);
        return 1;
    }
    if (s->running)
        return 1;
    if (general == 0x04) {
        s->has_address = false;
        s->reply_len = 0;
        return 1;
    }

    const uint8_t *body = frame;
    size_t body_len = frame_len; /* command and arguments */
    if (i2c) {
        if (!hears(p, s, address))
            return 1;
        if (frame_len < 2 || frame_len > p->longest)
            return send(p, s, 0, INVALID_TRANSFER, 0, out, made);
        if (!sealed(PLAIN_I2C, frame, frame_len - 1))
            return send(p, s, 0, INVALID_CRC, 0, out, made);
        body_len -= 1;
    } else {
        if (frame_len < 4)
            return FRAME_SHORT;
        if (frame_len > p->longest)
            return FRAME_LONG;
        if (!sealed(PLAIN_RS485, frame, frame_len - 2))
            return FRAME_CRC_WRONG;
        if (frame[0] == 0) /* another general call */
            return 1;
        if (!hears(p, s, frame[0]))
            return FRAME_FOREIGN;
        address = frame[0];
        body += 1;
        body_len -= 3;
    }

    uint8_t status;
    size_t results_len;
    uint8_t *results = out + (i2c ? 2 : 3);
    if (!obey(p, s, body[0], body + 1, body_len - 1, flash, &status, results, &results_len)) {
        s->reply_len = 0;
        return 1;
    }
    return send(p, s, (uint8_t)address, status, results_len, out, made);
}

uint32_t plain_receive_tally(const struct plain_profile *p, struct plain_state *s, uint32_t address, const uint8_t *frame,
                             size_t frame_len, uint8_t *flash, size_t flash_len, uint8_t *out, size_t out_len,
                             struct plain_tally *tally, size_t *made)
{
    uint32_t number = plain_receive(p, s, address, frame, frame_len, flash, flash_len, out, out_len, made);
    uint16_t *counter;
    if (number == 0)
        counter = &tally->answered;
    else if (number >= FRAME_SHORT)
        counter = &tally->dropped[number - FRAME_SHORT];
    else
        return number;
    if (*counter < 65535)
        ++*counter;
    return number;
}

uint32_t plain_read(const struct plain_profile *p, const struct plain_state *s, uint32_t address, size_t flash_len,
                    uint8_t *out, size_t out_len, size_t *made)
{
    *made = 0;
    uint32_t number = refused(p, s, flash_len, out_len);
    if (number != 0)
        return number;
    if (p->bus != PLAIN_I2C || s->running || s->reply_len == 0 || !hears(p, s, address))
        return 1;
    memcpy(out, s->reply, s->reply_len);
    *made = s->reply_len;
    return 0;
}

/* The master. */

static bool frame_refused(uint32_t bus, uint32_t longest)
{
    return bus > PLAIN_RS485 || longest < PLAIN_FRAME_MIN || longest > PLAIN_FRAME_MAX;
}

uint32_t plain_encode(uint32_t bus, uint32_t longest, uint32_t code, uint32_t destination, uint32_t a, uint32_t b,
                      const uint8_t *data, size_t data_len, uint8_t *out, size_t out_len, size_t *made)
{
    *made = 0;
    if (frame_refused(bus, longest))
        return 2;
    uint32_t last_address = bus == PLAIN_I2C ? 127 : 255;
    if (!served(code) || destination == 0 || destination > last_address)
        return 7;

    size_t args_len = rows[code].shortest;
    if (code == SET_ADDRESS) {
        if (reserved(bus, a) || b > 255)
            return 7;
    } else if (code == WRITE) {
        if (a > 65535 || data_len > longest - (bus == PLAIN_I2C ? 4 : 6))
            return 7;
        args_len += data_len;
    } else if (code == READ) {
        if (a > 65535 || b > longest - (bus == PLAIN_I2C ? 3 : 5))
            return 7;
    }
    if (args_len + (bus == PLAIN_I2C ? 2 : 4) > out_len)
        return 6;

    size_t at = 0;
    if (bus == PLAIN_RS485)
        out[at++] = (uint8_t)destination;
    out[at++] = (uint8_t)code;
    if (code == SET_ADDRESS) {
        out[at++] = (uint8_t)a;
        out[at++] = (uint8_t)b;
    } else if (code == WRITE) {
        at += put16(out + at, a);
        memcpy(out + at, data, data_len);
        at += data_len;
    } else if (code == READ) {
        at += put16(out + at, a);
        out[at++] = (uint8_t)b;
    }
    *made = seal(bus, out, at);
    return 0;
}

uint32_t plain_general(uint32_t bus, uint32_t longest, uint32_t reset, uint8_t *out, size_t out_len, size_t *made)
{
    *made = 0;
    if (frame_refused(bus, longest))
        return 2;
    if (out_len < (bus == PLAIN_I2C ? 1 : 4))
        return 6;
    if (bus == PLAIN_I2C) {
        out[0] = reset ? 0x06 : 0x04;
        *made = 1;
        return 0;
    }
    out[0] = 0;
    out[1] = reset ? 0x46 : 0x44;
    *made = seal(bus, out, 2);
    return 0;
}

/* The results that OK must have. */
static uint32_t fixed_part(uint32_t code, uint32_t asked)
{
    switch (code) {
    case VERSION:
    case FINALIZE:
    case LONGEST:
        return 2;
    case HARDWARE_INFO:
        return 5;
    case REVISION:
        return 1;
    case READ:
        return asked;
    default:
        return 0;
    }
}

uint32_t plain_decode(uint32_t bus, uint32_t code, uint32_t address, uint32_t asked, const uint8_t *reply,
                      size_t reply_len, uint32_t *status, size_t *start, size_t *len)
{
    *status = 0;
    *start = 0;
    *len = 0;
    if (bus > PLAIN_RS485 || !served(code))
        return 7;
    size_t header = bus == PLAIN_I2C ? 0 : 1;
    size_t shortest = bus == PLAIN_I2C ? 3 : 5;
    if (reply_len < shortest)
        return 8;
    size_t results = reply[header + 1];
    if (bus == PLAIN_I2C ? reply_len < results + shortest : reply_len != results + shortest)
        return 11;
    if (!sealed(bus, reply, header + 2 + results))
        return 9;
    if (bus == PLAIN_RS485 && reply[0] != address)
        return 10;
    if (reply[header] > INVALID_ARGUMENTS)
        return 12;
    if (reply[header] == OK && results < fixed_part(code, asked))
        return 13;
    *status = reply[header];
    *start = header + 2;
    *len = results;
    return 0;
}

uint32_t plain_two_reads(uint32_t code, uint32_t asked, const uint8_t *first, size_t first_len, const uint8_t *second,
                         size_t second_len, size_t *start, size_t *len)
{
    uint32_t status;
    if (plain_decode(PLAIN_I2C, code, 0, asked, first, first_len, &status, start, len) == 0)
        return 1;
    if (plain_decode(PLAIN_I2C, code, 0, asked, second, second_len, &status, start, len) == 0)
        return 2;
    return 0;
}

uint32_t plain_version(uint32_t major, uint32_t minor, uint32_t *known_major, uint32_t *known_minor)
{
    *known_major = 0;
    *known_minor = 0;
    if (major == 0 && minor == 0)
        return 40; /* an application answers */
    if (major != 1 && major != 2)
        return 14;
    *known_major = major;
    *known_minor = minor < major ? minor : major; /* the highest known minor equals the major: 1.1 and 2.2 */
    return 0;
}

/* How many of n bytes from a place on there are. */
static size_t there(size_t len, size_t at, size_t n)
{
    return at >= len ? 0 : len - at < n ? len - at : n;
}

/* Whether n bytes from a place on, or as many as there are, are the same in two copies of the flash. */
static bool same_part(const uint8_t *earlier, size_t earlier_len, const uint8_t *flash, size_t flash_len, size_t at, size_t n)
{
    size_t had = there(earlier_len, at, n), has = there(flash_len, at, n);
    return had == has && (has == 0 || memcmp(earlier + at, flash + at, has) == 0);
}

uint32_t plain_upload_end(const struct plain_profile *p, const uint8_t *image, size_t image_len, const uint8_t *earlier,
                          size_t earlier_len, const uint8_t *flash, size_t flash_len)
{
    if (image_len <= there(flash_len, p->offset, p->size) &&
        (image_len == 0 || memcmp(flash + p->offset, image, image_len) == 0))
        return 0; /* whole */
    return same_part(earlier, earlier_len, flash, flash_len, p->offset, p->size) ? 2 : 1;
}

uint32_t plain_page_changed(const struct plain_profile *p, uint32_t page, const uint8_t *earlier, size_t earlier_len,
                            const uint8_t *flash, size_t flash_len)
{
    return !same_part(earlier, earlier_len, flash, flash_len, p->offset + (size_t)page * p->page, p->page);
}
