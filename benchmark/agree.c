/*
 * Compares the library with each build of the plain C call by call: numbers, outputs with their untouched rest, states, flash, tallies.
 * Bytes of the state that mean nothing are other than 0, and must stay as they are.
 */
#include <stdio.h>
#include <stdlib.h>
#include <string.h>

#include "jobs.h"

/* A build of the plain C. */
struct build {
    const char *name;
    enum side side;
    __typeof__(plain_crc8) *crc8;
    __typeof__(plain_crc16) *crc16;
    __typeof__(plain_fresh) *fresh;
    __typeof__(plain_receive) *receive;
    __typeof__(plain_receive_tally) *receive_tally;
    __typeof__(plain_read) *read;
    __typeof__(plain_encode) *encode;
    __typeof__(plain_general) *general;
    __typeof__(plain_decode) *decode;
    __typeof__(plain_two_reads) *two_reads;
    __typeof__(plain_version) *version;
    __typeof__(plain_upload_end) *upload_end;
    __typeof__(plain_page_changed) *page_changed;
};

#define BUILD(c, side)                                                                                                    \
    {#c,       side,       c##_crc8,    c##_crc16,  c##_fresh,     c##_receive, c##_receive_tally,                        \
     c##_read, c##_encode, c##_general, c##_decode, c##_two_reads, c##_version, c##_upload_end, c##_page_changed}

static const struct build builds[] = {BUILD(plain, PLAIN), BUILD(plain256, PLAIN_256)};

/* The one that is compared. */
static const struct build *plain;

/* Random inputs. Most are nearly right, so that every rule and every refusal is met. */

static const uint64_t seed = 88172645463325252u;
static uint64_t random_state;

static uint32_t any(void)
{
    random_state ^= random_state << 13;
    random_state ^= random_state >> 7;
    random_state ^= random_state << 17;
    return (uint32_t)(random_state >> 16);
}

static uint32_t below(uint32_t n)
{
    return any() % n;
}

static bool one_in(uint32_t n)
{
    return below(n) == 0;
}

static void put32(uint8_t *out, uint32_t value)
{
    for (int i = 0; i < 4; i++)
        out[i] = (uint8_t)(value >> 8 * i);
}

static size_t least(size_t a, size_t b)
{
    return a < b ? a : b;
}

/* Lays a state over its bytes. Those that mean nothing stay. */
static void lay_state(uint8_t *b, const struct plain_state *s)
{
    b[CHILDBUS_STATE_ADDRESS_KIND] = s->has_address;
    if (s->has_address)
        b[CHILDBUS_STATE_OWN_ADDRESS] = s->address;
    b[CHILDBUS_STATE_RUNNING] = s->running;
    put32(b + CHILDBUS_STATE_NEXT, s->next);
    put32(b + CHILDBUS_STATE_WAITING_COUNT, s->w);
    put32(b + CHILDBUS_STATE_ERASE_COUNT, s->count);
    put32(b + CHILDBUS_STATE_REPLY_LENGTH, s->reply_len);
    memcpy(b + CHILDBUS_STATE_WAITING, s->waiting, least(s->w, sizeof s->waiting));
    memcpy(b + CHILDBUS_STATE_REPLY, s->reply, least(s->reply_len, sizeof s->reply));
}

/* Whether a byte of the state's buffer means nothing in this state. */
static bool means_nothing(const struct plain_state *s, size_t at)
{
    if (at == CHILDBUS_STATE_OWN_ADDRESS)
        return !s->has_address;
    if (at < CHILDBUS_STATE_WAITING)
        return at == 3;
    if (at < CHILDBUS_STATE_REPLY)
        return at - CHILDBUS_STATE_WAITING >= s->w;
    return at - CHILDBUS_STATE_REPLY >= s->reply_len || at >= CHILDBUS_STATE_BYTES;
}

/* Any bytes but 0 where the buffer means nothing. */
static void fill_state(uint8_t *b, size_t len, const struct plain_state *s)
{
    for (size_t i = 0; i < len; i++)
        if (means_nothing(s, i))
            b[i] = (uint8_t)(1 + below(255));
}

/* The buffer is what it was before the call, with the plain C's state (none: no call may change it) laid over it. */
static bool same_state(const uint8_t *b, const uint8_t *before, size_t len, const struct plain_state *s)
{
    uint8_t due[CHILDBUS_STATE_BYTES + 16];
    memcpy(due, before, len);
    if (s != NULL)
        lay_state(due, s);
    for (size_t i = 0; i < len; i++)
        if (b[i] != due[i]) {
            printf("state byte %zu%s: expected %02x, found %02x\n", i, s != NULL && means_nothing(s, i) ? ", which means nothing" : "",
                   due[i], b[i]);
            return false;
        }
    return true;
}

/* The same tally. */
static bool same_tally(const uint8_t *b, const struct plain_tally *tally)
{
    for (size_t i = 0; i < 5; i++)
        if ((b[2 * i] | b[2 * i + 1] << 8) != (i < 4 ? tally->dropped[i] : tally->answered))
            return false;
    return true;
}

/* The benchmark's inputs. */

static bool job_agrees(const struct job *job)
{
    uint8_t before[CHILDBUS_STATE_BYTES];
    make_inputs(job);
    set_up(job, LIBRARY);
    set_up(job, plain->side);
    uint8_t *out = boards.out[LIBRARY];
    uint8_t *plain_out = boards.out[PLAIN];
    for (size_t i = 0; i < input_count; i++) {
        const struct input *in = &inputs[i];
        const uint8_t *bytes = pool + in->at;
        uint32_t number = 0, plain_number = 0, status = 0, plain_status = 0;
        uint32_t expected = job->kind == DROPPED ? 15 + (uint32_t)i : 0;
        size_t made = 0, plain_made = 0, start = 0, plain_start = 0;
        fill_state(boards.state, sizeof boards.state, &boards.plain_state);
        memcpy(before, boards.state, sizeof before);
        switch (job->kind) {
        case UPLOAD_FIRST:
        case UPLOAD_REPEATED:
        case READ_BACK:
            number = childbus_receive(boards.profile, sizeof boards.profile, boards.state, sizeof boards.state, ADDRESS,
                                      bytes, in->len, boards.flash[LIBRARY], FLASH, out, job->frame, &made);
            plain_number = plain->receive(&boards.plain_profile, &boards.plain_state, ADDRESS, bytes, in->len,
                                          boards.flash[PLAIN], FLASH, plain_out, job->frame, &plain_made);
            break;
        case UPLOAD_TALLY:
        case DROPPED:
            number = childbus_receive_tally(boards.profile, sizeof boards.profile, boards.state, sizeof boards.state,
                                            ADDRESS, bytes, in->len, boards.flash[LIBRARY], FLASH, out, job->frame,
                                            boards.tally, sizeof boards.tally, &made);
            plain_number = plain->receive_tally(&boards.plain_profile, &boards.plain_state, ADDRESS, bytes, in->len,
                                                boards.flash[PLAIN], FLASH, plain_out, job->frame, &boards.plain_tally,
                                                &plain_made);
            break;
        case READ_REPLY:
            number = childbus_read(boards.profile, sizeof boards.profile, boards.state, sizeof boards.state, ADDRESS,
                                   boards.flash[LIBRARY], FLASH, out, job->frame, &made);
            plain_number = plain->read(&boards.plain_profile, &boards.plain_state, ADDRESS, FLASH, plain_out, job->frame,
                                       &plain_made);
            break;
        case ENCODE_WRITE:
        case ENCODE_SHORT:
            number = childbus_encode(job->bus, job->frame, in->code, ADDRESS, in->a, in->b, bytes, in->len, out,
                                     job->frame, &made);
            plain_number = plain->encode(job->bus, job->frame, in->code, ADDRESS, in->a, in->b, bytes, in->len,
                                         plain_out, job->frame, &plain_made);
            break;
        case DECODE_FULL:
        case DECODE_SHORT:
            number = childbus_decode(job->bus, in->code, ADDRESS, in->b, bytes, in->len, &status, &start, &made);
            plain_number = plain->decode(job->bus, in->code, ADDRESS, in->b, bytes, in->len, &plain_status,
                                         &plain_start, &plain_made);
            break;
        case TWO_READS:
            /* 2 is the answer that is measured: the first read is damaged */
            number = childbus_two_reads(in->code, in->b, pool + inputs[1].at, inputs[1].len, pool + inputs[0].at,
                                        inputs[0].len, &start, &made) ^ 2;
            plain_number = plain->two_reads(in->code, in->b, pool + inputs[1].at, inputs[1].len, pool + inputs[0].at,
                                            inputs[0].len, &plain_start, &plain_made) ^ 2;
            break;
        case UPLOAD_END:
            number = childbus_upload_end(boards.profile, sizeof boards.profile, bytes, in->len, boards.flash[LIBRARY], FLASH,
                                         boards.flash[LIBRARY], FLASH);
            plain_number = plain->upload_end(&boards.plain_profile, bytes, in->len, boards.flash[PLAIN], FLASH,
                                             boards.flash[PLAIN], FLASH);
            break;
        case PAGES_CHANGED:
            number = childbus_page_changed(boards.profile, sizeof boards.profile, in->a, pool, FLASH, boards.flash[LIBRARY], FLASH);
            plain_number = plain->page_changed(&boards.plain_profile, in->a, pool, FLASH, boards.flash[PLAIN], FLASH);
            break;
        }
        if (number != expected || number != plain_number || made != plain_made || status != plain_status ||
            start != plain_start || memcmp(out, plain_out, sizeof boards.out[0]) != 0 ||
            !same_state(boards.state, before, sizeof before, &boards.plain_state) ||
            !same_tally(boards.tally, &boards.plain_tally) || memcmp(boards.flash[LIBRARY], boards.flash[PLAIN], FLASH) != 0) {
            printf("%s, bus %u, frames of %u, pages of %u: the sides differ at call %zu (library %u, %s %u, expected %u)\n",
                   kind_name(job->kind), (unsigned)job->bus, (unsigned)job->frame, (unsigned)job->page, i, (unsigned)number,
                   plain->name, (unsigned)plain_number, (unsigned)expected);
            return false;
        }
    }
    return true;
}

/* Random calls. */

enum { SMALL_FLASH = 512, PAST_STATE = 4 };

struct trial {
    uint8_t profile[CHILDBUS_PROFILE_BYTES], state[CHILDBUS_STATE_BYTES + PAST_STATE], before[CHILDBUS_STATE_BYTES + PAST_STATE];
    uint8_t flash[SMALL_FLASH], out[300], bytes[700], tally[12];
    size_t profile_len, state_len, flash_len, out_len, len, tally_len;
    struct plain_profile plain_profile;
    struct plain_state plain_state;
    struct plain_tally plain_tally;
    uint8_t plain_flash[SMALL_FLASH], plain_out[300];
};

static struct trial t;

/* The page in both profiles. One that is out of range has no byte of its own: any byte above 1. */
static void set_page(uint32_t page)
{
    t.plain_profile.page = page;
    t.profile[CHILDBUS_PROFILE_PAGE] = (uint8_t)(page == PLAIN_PAGE_MIN   ? CHILDBUS_PAGE_64
                                                 : page == PLAIN_PAGE_MAX ? CHILDBUS_PAGE_128
                                                                          : 2 + below(254));
}

/* Another page for the board, mostly a right one. */
static void change_page(void)
{
    static const uint32_t wrong[] = {0, 1, 32, 63, 65, 96, 127, 129, 192, 256};
    if (one_in(6))
        set_page(wrong[below(sizeof wrong / sizeof wrong[0])]);
    else
        set_page(t.plain_profile.page == PLAIN_PAGE_MIN ? PLAIN_PAGE_MAX : PLAIN_PAGE_MIN);
}

static void random_profile(void)
{
    struct plain_profile *p = &t.plain_profile;
    uint32_t page = one_in(2) ? PLAIN_PAGE_MIN : PLAIN_PAGE_MAX;
    uint32_t pages = SMALL_FLASH / 2 / page; /* of the working flash, and before it */
    *p = (struct plain_profile){.bus = (uint8_t)below(2), .hardware = (uint8_t)(1 + below(3)),
                                .compatible = (uint8_t)any(), .actual = (uint8_t)any(), .bootloader = (uint8_t)any(),
                                .serial_len = (uint8_t)below(17), .longest = one_in(2) ? 32 + below(8) : 32 + below(225),
                                .size = page * (1 + below(pages)), .offset = page * below(pages)};
    for (int i = 0; i < PLAIN_SERIAL_MAX; i++)
        p->serial[i] = (uint8_t)any();
    if (one_in(40)) {
        static const uint32_t odd[] = {0, 1, 31, 63, 65, 257, 65471, 65473, 65536, 4294967295u};
        uint32_t value = odd[below(sizeof odd / sizeof odd[0])];
        switch (below(7)) {
        case 0: p->bus = (uint8_t)(2 + below(254)); break;
        case 1: p->hardware = 0; break;
        case 2: p->serial_len = (uint8_t)(17 + below(239)); break;
        case 3: p->longest = value; break;
        case 4: p->size = value; break;
        case 5: page = value; break;
        default: p->offset = value; break;
        }
    }
    for (size_t i = 0; i < sizeof t.profile; i++)
        t.profile[i] = (uint8_t)any();
    set_page(page);
    t.profile[CHILDBUS_PROFILE_BUS] = p->bus;
    t.profile[CHILDBUS_PROFILE_HARDWARE] = p->hardware;
    t.profile[CHILDBUS_PROFILE_COMPATIBLE] = p->compatible;
    t.profile[CHILDBUS_PROFILE_ACTUAL] = p->actual;
    t.profile[CHILDBUS_PROFILE_BOOTLOADER] = p->bootloader;
    t.profile[CHILDBUS_PROFILE_SERIAL_LENGTH] = p->serial_len;
    put32(t.profile + CHILDBUS_PROFILE_LONGEST, p->longest);
    put32(t.profile + CHILDBUS_PROFILE_SIZE, p->size);
    put32(t.profile + CHILDBUS_PROFILE_OFFSET, p->offset);
    memcpy(t.profile + CHILDBUS_PROFILE_SERIAL, p->serial, PLAIN_SERIAL_MAX);
    t.profile_len = one_in(200) ? below(CHILDBUS_PROFILE_BYTES) : CHILDBUS_PROFILE_BYTES;
}

/* Fresh or, now and then, any state, malformed ones too. */
static void random_state_of(void)
{
    struct plain_state *s = &t.plain_state;
    plain->fresh(s);
    if (one_in(2)) {
        s->has_address = one_in(2);
        s->address = (uint8_t)(one_in(4) ? any() : 8 + below(3));
        s->running = one_in(10);
        s->next = below(t.plain_profile.size % 1000 + 2);
        s->w = below(s->next % (t.plain_profile.page == PLAIN_PAGE_MAX ? PLAIN_PAGE_MAX : PLAIN_PAGE_MIN) + (one_in(20) ? 2 : 1));
        s->count = below(4);
        if (t.plain_profile.bus == PLAIN_I2C || one_in(20))
            s->reply_len = one_in(20) ? below(300) : below(6);
        for (size_t i = 0; i < sizeof s->waiting; i++)
            s->waiting[i] = one_in(8) ? (uint8_t)any() : 0xff;
        for (int i = 0; i < PLAIN_FRAME_MAX; i++)
            s->reply[i] = (uint8_t)any();
        if (one_in(40))
            *(one_in(2) ? &s->next : one_in(2) ? &s->w : &s->count) = any();
    }
    lay_state(t.state, s);
    fill_state(t.state, sizeof t.state, s);
    t.state_len = CHILDBUS_STATE_BYTES + below(PAST_STATE + 1);
}

/* Counters of which most are near their ends; now and then no tally, as the buffer is too short. */
static void random_tally(void)
{
    for (size_t i = 0; i < sizeof t.tally; i++)
        t.tally[i] = (uint8_t)any();
    for (size_t i = 0; i < 5; i++) {
        uint16_t value = (uint16_t)(one_in(3) ? any() : one_in(2) ? 65535 - below(4) : 256 - below(4));
        t.tally[2 * i] = (uint8_t)value;
        t.tally[2 * i + 1] = (uint8_t)(value >> 8);
        *(i < 4 ? &t.plain_tally.dropped[i] : &t.plain_tally.answered) = value;
    }
    t.tally_len = one_in(10) ? below(CHILDBUS_TALLY_BYTES) : CHILDBUS_TALLY_BYTES + below(3);
}

/* A request that fits the board, with a right check sum; now and then damaged, cut or far too long. */
static void random_frame(void)
{
    const struct plain_profile *p = &t.plain_profile;
    uint8_t *f = t.bytes;
    size_t at = 0;
    if (p->bus != PLAIN_I2C)
        f[at++] = (uint8_t)(one_in(10) ? below(20) : t.plain_state.has_address ? t.plain_state.address : 8 + below(8));
    if (one_in(12)) { /* a general call, or nearly one */
        at = 0;
        if (p->bus != PLAIN_I2C)
            f[at++] = 0;
        f[at++] = (uint8_t)((one_in(2) ? 0x40 : 0) | (one_in(2) ? 4 : 6));
        if (p->bus == PLAIN_I2C) {
            t.len = at;
            return;
        }
    } else {
        uint8_t code = (uint8_t)(one_in(2) ? 0x06 : below(17));
        size_t args = code == 0x06 ? 2 + below(one_in(2) ? 30 : p->longest % 260 + 1) : code == 0x08 ? 3 : code == 0x01 ? 2 : 0;
        if (one_in(12))
            args = below(8);
        f[at++] = code;
        for (size_t i = 0; i < args; i++)
            f[at + i] = one_in(6) ? (uint8_t)any() : 0xff;
        if (code == 0x01 && args == 2) {
            f[at] = (uint8_t)(one_in(3) ? any() : 8 + below(4));
            f[at + 1] = (uint8_t)below(4);
        } else if (args >= 2) {
            uint32_t place = code == 0x08 ? below(70) : one_in(3) ? 0 : one_in(6) ? any() : t.plain_state.next;
            f[at] = (uint8_t)(place >> 8);
            f[at + 1] = (uint8_t)place;
            if (code == 0x08 && args == 3)
                f[at + 2] = (uint8_t)below(one_in(2) ? 40 : 256);
        }
        at += args;
        if (one_in(30))
            for (size_t end = at + below(300); at < end; at++)
                f[at] = (uint8_t)any();
    }
    if (p->bus == PLAIN_I2C) {
        f[at] = plain_crc8(f, at);
        at += 1;
    } else {
        uint16_t crc = plain_crc16(f, at);
        f[at] = (uint8_t)crc;
        f[at + 1] = (uint8_t)(crc >> 8);
        at += 2;
    }
    if (one_in(12))
        f[below((uint32_t)at)] ^= (uint8_t)(1u << below(8));
    if (one_in(20))
        at = below((uint32_t)at + 1);
    t.len = at;
}

static bool differ(const char *what, size_t turn)
{
    printf("random %s: library and %s differ at turn %zu\n", what, plain->name, turn);
    return false;
}

/* A list of calls to one board. Now and then its page changes: the state is handed over. */
static bool board_turn(size_t turn)
{
    random_profile();
    random_state_of();
    random_tally();
    t.flash_len = one_in(40) ? below(SMALL_FLASH) : SMALL_FLASH;
    for (size_t i = 0; i < SMALL_FLASH; i++)
        t.flash[i] = t.plain_flash[i] = one_in(8) ? (uint8_t)any() : 0xff;
    for (uint32_t call = 0; call < 12; call++) {
        if (one_in(12))
            change_page();
        uint32_t m = t.plain_profile.longest;
        t.out_len = one_in(40) ? below(m % 300 + 1) : sizeof t.out;
        memset(t.out, 0xa5, sizeof t.out);
        memset(t.plain_out, 0xa5, sizeof t.plain_out);
        if (one_in(60)) /* a byte that no field can hold, or a short buffer */
            switch (below(3)) {
            case 0: t.state[CHILDBUS_STATE_ADDRESS_KIND] = (uint8_t)(2 + below(254)); break;
            case 1: t.state[CHILDBUS_STATE_RUNNING] = (uint8_t)(2 + below(254)); break;
            default: t.state_len = below(CHILDBUS_STATE_BYTES); break;
            }
        if (one_in(4))
            fill_state(t.state, sizeof t.state, &t.plain_state);
        bool bad_state = t.state_len < CHILDBUS_STATE_BYTES || t.state[CHILDBUS_STATE_ADDRESS_KIND] > 1 ||
                         t.state[CHILDBUS_STATE_RUNNING] > 1;
        memcpy(t.before, t.state, sizeof t.state);

        /* the plain C has no byte buffers: a state that has no struct is one with a next that is out of range */
        struct plain_state bad;
        plain->fresh(&bad);
        bad.next = 4294967295u;
        struct plain_state *s = bad_state ? &bad : &t.plain_state;
        uint32_t address = one_in(12) ? below(140) : t.plain_state.has_address ? t.plain_state.address : 8 + below(8);
        if (one_in(12))
            address = 0;
        size_t made = 77, plain_made = 0;
        uint32_t number, plain_number = 2; /* a profile buffer that is too short has no struct either */
        bool whole = t.profile_len == CHILDBUS_PROFILE_BYTES;
        /* a buffer that is no tally: the call is the same, and nothing is counted */
        bool no_tally = t.tally_len < CHILDBUS_TALLY_BYTES;
        uint8_t tally_before[sizeof t.tally];
        memcpy(tally_before, t.tally, sizeof t.tally);
        if (one_in(4)) {
            number = childbus_read(t.profile, t.profile_len, t.state, t.state_len, address, t.flash, t.flash_len,
                                   t.out, t.out_len, &made);
            if (whole)
                plain_number = plain->read(&t.plain_profile, s, address, t.flash_len, t.plain_out, t.out_len, &plain_made);
        } else if (one_in(2)) {
            random_frame();
            number = childbus_receive_tally(t.profile, t.profile_len, t.state, t.state_len, address, t.bytes, t.len,
                                            t.flash, t.flash_len, t.out, t.out_len, t.tally, t.tally_len, &made);
            struct plain_tally unused = t.plain_tally;
            if (whole)
                plain_number = plain->receive_tally(&t.plain_profile, s, address, t.bytes, t.len, t.plain_flash, t.flash_len,
                                                    t.plain_out, t.out_len, no_tally ? &unused : &t.plain_tally, &plain_made);
        } else {
            random_frame();
            number = childbus_receive(t.profile, t.profile_len, t.state, t.state_len, address, t.bytes, t.len, t.flash,
                                      t.flash_len, t.out, t.out_len, &made);
            if (whole)
                plain_number = plain->receive(&t.plain_profile, s, address, t.bytes, t.len, t.plain_flash, t.flash_len,
                                              t.plain_out, t.out_len, &plain_made);
        }
        if (number != plain_number || made != plain_made || memcmp(t.out, t.plain_out, sizeof t.out) != 0 ||
            memcmp(t.flash, t.plain_flash, SMALL_FLASH) != 0)
            return differ("board call", turn);
        if (!same_tally(t.tally, &t.plain_tally) ||
            memcmp(tally_before + CHILDBUS_TALLY_BYTES, t.tally + CHILDBUS_TALLY_BYTES, 2) != 0)
            return differ("tally", turn);
        if (!same_state(t.state, t.before, sizeof t.state, number > 1 ? NULL : &t.plain_state))
            return differ("state", turn);
    }
    return true;
}

static bool master_turn(size_t turn)
{
    uint32_t bus = one_in(20) ? any() : below(2);
    uint32_t longest = one_in(20) ? below(300) : 32 + below(225);
    uint32_t code = one_in(20) ? any() : below(16);
    uint32_t destination = one_in(8) ? any() % 600 : 1 + below(140);
    uint32_t a = one_in(2) ? below(300) : one_in(8) ? any() : below(65540);
    uint32_t b = one_in(8) ? any() : below(300);
    size_t len = one_in(2) ? below(270) : below(40);
    size_t made = 77, plain_made = 77;
    for (size_t i = 0; i < sizeof t.bytes; i++)
        t.bytes[i] = (uint8_t)any();
    t.out_len = one_in(4) ? below(270) : sizeof t.out;
    memset(t.out, 0xa5, sizeof t.out);
    memset(t.plain_out, 0xa5, sizeof t.plain_out);
    uint32_t number, plain_number;
    if (one_in(10)) {
        uint32_t reset = one_in(2) ? 0 : any();
        t.out_len = below(6);
        number = childbus_general(bus, longest, reset, t.out, t.out_len, &made);
        plain_number = plain->general(bus, longest, reset, t.plain_out, t.out_len, &plain_made);
    } else {
        number = childbus_encode(bus, longest, code, destination, a, b, t.bytes, len, t.out, t.out_len, &made);
        plain_number = plain->encode(bus, longest, code, destination, a, b, t.bytes, len, t.plain_out, t.out_len,
                                     &plain_made);
    }
    if (number != plain_number || made != plain_made || memcmp(t.out, t.plain_out, sizeof t.out) != 0)
        return differ("request", turn);

    /* a reply: nearly right */
    bus = below(2);
    size_t header = bus == PLAIN_I2C ? 0 : 1;
    size_t results = one_in(2) ? below(8) : below(256);
    uint8_t *r = t.bytes;
    r[0] = (uint8_t)(8 + below(2));
    r[header] = (uint8_t)(one_in(2) ? 0 : below(8));
    r[header + 1] = (uint8_t)results;
    size_t at = header + 2 + results;
    if (bus == PLAIN_I2C) {
        r[at] = plain_crc8(r, at);
        at += 1 + (one_in(4) ? below(10) : 0);
    } else {
        uint16_t crc = plain_crc16(r, at);
        r[at] = (uint8_t)crc;
        r[at + 1] = (uint8_t)(crc >> 8);
        at += 2;
    }
    if (one_in(6))
        r[below((uint32_t)at)] ^= (uint8_t)(1u << below(8));
    if (one_in(8))
        at = below((uint32_t)at + 2);
    if (one_in(30))
        bus = any();
    uint32_t status = 77, plain_status = 77;
    size_t start = 77, plain_start = 77;
    number = childbus_decode(bus, code, r[0], b, r, at, &status, &start, &made);
    plain_number = plain->decode(bus, code, r[0], b, r, at, &plain_status, &plain_start, &plain_made);
    if (number != plain_number || status != plain_status || start != plain_start || made != plain_made)
        return differ("reply", turn);
    number = childbus_decode(bus, code, 8, b, r, at, &status, &start, &made);
    plain_number = plain->decode(bus, code, 8, b, r, at, &plain_status, &plain_start, &plain_made);
    if (number != plain_number || status != plain_status || start != plain_start || made != plain_made)
        return differ("reply", turn);

    memcpy(t.out, r, least(at, sizeof t.out));
    if (at > 0 && one_in(2))
        r[below((uint32_t)at)] ^= 1;
    number = childbus_two_reads(code, b, r, at, t.out, least(at, sizeof t.out), &start, &made);
    plain_number = plain->two_reads(code, b, r, at, t.out, least(at, sizeof t.out), &plain_start, &plain_made);
    if (number != plain_number || made != plain_made || (number != 0 && start != plain_start))
        return differ("reply read twice", turn);

    uint32_t major = 77, minor = 77, plain_major = 77, plain_minor = 77;
    uint32_t given = one_in(10) ? any() : below(4), given_minor = one_in(10) ? any() : below(5);
    number = childbus_version(given, given_minor, &major, &minor);
    plain_number = plain->version(given, given_minor, &plain_major, &plain_minor);
    if (number != plain_number || major != plain_major || minor != plain_minor)
        return differ("version", turn);
    return true;
}

/* The check sums of both builds: each register of CRC-8 with each byte, each low byte of CRC-16's register with each byte. */
static bool sums_agree(void)
{
    for (uint32_t pair = 0; pair < 65536; pair++) {
        uint8_t bytes[2] = {(uint8_t)pair, (uint8_t)(pair >> 8)};
        if (plain->crc8(bytes, 2) != plain_crc8(bytes, 2) || plain->crc16(bytes, 2) != plain_crc16(bytes, 2)) {
            printf("check sums of %02x %02x: plain %02x and %04x, %s %02x and %04x\n", bytes[0], bytes[1], plain_crc8(bytes, 2),
                   plain_crc16(bytes, 2), plain->name, plain->crc8(bytes, 2), plain->crc16(bytes, 2));
            return false;
        }
    }
    return true;
}

bool agree(void)
{
    enum { TURNS = 50000 };
    for (size_t k = 0; k < sizeof builds / sizeof builds[0]; k++) {
        plain = &builds[k];
        random_state = seed;
        if (!sums_agree())
            return false;
        for (size_t i = 0; i < job_count; i++)
            if (!job_agrees(&job_list[i]))
                return false;
        for (size_t turn = 0; turn < TURNS; turn++)
            if (!board_turn(turn) || !master_turn(turn))
                return false;
    }
    printf("The library agrees with both builds of the C on the inputs of all %zu jobs (after every call: number, output, every "
           "byte of the state, flash, tally) and on %d random calls, refused ones among them.\n",
           job_count, TURNS * 17);
    return true;
}
