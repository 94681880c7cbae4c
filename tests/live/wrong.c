/*
 * Wrong libraries for the comparison. A right one's calls, renamed (./wrong does it), with the one fault that CHILDBUS_WRONG names; with
 * no name, none. After childbus_receive and childbus_receive_tally it is in bytes of the state that should have stayed as they were, or in
 * what an upload leaves (finished_..), with the five calls on what must not be missed in their answers.
 */
#include <childbus.h>
#include <stdio.h>
#include <stdlib.h>
#include <string.h>

enum { PAGE_BYTES = 128, REPLY_BYTES = 256 };

/* A call's arguments, without its tally. */
struct call {
    const uint8_t *profile;
    uint64_t profile_len;
    uint8_t *state;
    uint64_t state_len;
    uint32_t address;
    const uint8_t *frame;
    uint64_t frame_len;
    uint8_t *flash;
    uint64_t flash_len;
    uint8_t *out;
    uint64_t out_len;
    uint64_t *made;
};

uint32_t right_receive(const uint8_t *profile, uint64_t profile_len, uint8_t *state, uint64_t state_len, uint32_t address,
                       const uint8_t *frame, uint64_t frame_len, uint8_t *flash, uint64_t flash_len, uint8_t *out, uint64_t out_len,
                       uint64_t *made);
uint32_t right_receive_tally(const uint8_t *profile, uint64_t profile_len, uint8_t *state, uint64_t state_len, uint32_t address,
                             const uint8_t *frame, uint64_t frame_len, uint8_t *flash, uint64_t flash_len, uint8_t *out,
                             uint64_t out_len, uint8_t *tally, uint64_t tally_len, uint64_t *made);

uint32_t right_silence(const uint8_t *profile, uint64_t profile_len, const uint8_t *state, uint64_t state_len, uint32_t address,
                       const uint8_t *frame, uint64_t frame_len, uint32_t number);
uint32_t right_lost(const uint8_t *profile, uint64_t profile_len, const uint8_t *before, uint64_t before_len, const uint8_t *after,
                    uint64_t after_len, const uint8_t *flash, uint64_t flash_len);
uint32_t right_erased_nothing(const uint8_t *profile, uint64_t profile_len, const uint8_t *frame, uint64_t frame_len, uint32_t number,
                              const uint8_t *reply, uint64_t reply_len, const uint8_t *after, uint64_t after_len);
uint32_t right_upload_end(const uint8_t *profile, uint64_t profile_len, const uint8_t *image, uint64_t image_len,
                          const uint8_t *earlier, uint64_t earlier_len, const uint8_t *flash, uint64_t flash_len);
uint32_t right_page_changed(const uint8_t *profile, uint64_t profile_len, uint32_t page, const uint8_t *earlier, uint64_t earlier_len,
                            const uint8_t *flash, uint64_t flash_len);

static uint8_t before[CHILDBUS_STATE_BYTES]; /* the state before the call */

static uint32_t number_at(const uint8_t *bytes, int at)
{
    return bytes[at] | (uint32_t)bytes[at + 1] << 8 | (uint32_t)bytes[at + 2] << 16 | (uint32_t)bytes[at + 3] << 24;
}

static void put_number(uint8_t *bytes, int at, uint32_t number)
{
    for (int i = 0; i < 4; i++)
        bytes[at + i] = (uint8_t)(number >> 8 * i);
}

/* w and the last reply's length, now and before. */
struct lengths {
    uint32_t w, reply, old_w, old_reply;
};

/* All zeros, as after childbus_fresh. */
static void zeros(const struct call *c, struct lengths n)
{
    c->state[3] = 0;
    if (c->state[CHILDBUS_STATE_ADDRESS_KIND] == 0)
        c->state[CHILDBUS_STATE_OWN_ADDRESS] = 0;
    memset(c->state + CHILDBUS_STATE_WAITING + n.w, 0, PAGE_BYTES - n.w);
    memset(c->state + CHILDBUS_STATE_REPLY + n.reply, 0, REPLY_BYTES - n.reply);
}

/* The end of the last page committed in the call stands behind the bytes that wait now. */
static void committed_page(const struct call *c, struct lengths n)
{
    uint32_t page = c->profile[CHILDBUS_PROFILE_PAGE] == CHILDBUS_PAGE_64 ? CHILDBUS_PAGE : CHILDBUS_PAGE_MAX;
    uint32_t next = number_at(c->state, CHILDBUS_STATE_NEXT), end = next - next % page;
    if (*c->made > 0 && end > number_at(before, CHILDBUS_STATE_NEXT))
        memcpy(c->state + CHILDBUS_STATE_WAITING + n.w, c->flash + number_at(c->profile, CHILDBUS_PROFILE_OFFSET) + end - page + n.w,
               page - n.w);
}

/* Bytes that waited and don't any more, after finalize, start and reset among others. */
static void no_longer_waiting(const struct call *c, struct lengths n)
{
    if (n.w < n.old_w)
        memset(c->state + CHILDBUS_STATE_WAITING + n.w, 0, n.old_w - n.w);
}

static void one_behind_w(const struct call *c, struct lengths n)
{
    if (n.w < PAGE_BYTES)
        c->state[CHILDBUS_STATE_WAITING + n.w] = 0;
}

static void last_waiting_place(const struct call *c, struct lengths n)
{
    (void)n;
    c->state[CHILDBUS_STATE_WAITING + PAGE_BYTES - 1] = 0;
}

static void shorter_reply(const struct call *c, struct lengths n)
{
    if (n.reply > 0 && n.reply < n.old_reply)
        memset(c->state + CHILDBUS_STATE_REPLY + n.reply, 0, n.old_reply - n.reply);
}

static void no_reply(const struct call *c, struct lengths n)
{
    if (n.reply == 0 && n.old_reply > 0)
        memset(c->state + CHILDBUS_STATE_REPLY, 0, n.old_reply);
}

static void one_behind_the_reply(const struct call *c, struct lengths n)
{
    if (n.reply < REPLY_BYTES)
        c->state[CHILDBUS_STATE_REPLY + n.reply] = 0;
}

static void rs485_reply_kept(const struct call *c, struct lengths n)
{
    (void)n;
    if (c->profile[CHILDBUS_PROFILE_BUS] == CHILDBUS_RS485)
        memcpy(c->state + CHILDBUS_STATE_REPLY, c->out, *c->made);
}

static void byte_3(const struct call *c, struct lengths n)
{
    (void)n;
    c->state[3] = 0;
}

static void own_address(const struct call *c, struct lengths n)
{
    (void)n;
    if (c->state[CHILDBUS_STATE_ADDRESS_KIND] == 0 && before[CHILDBUS_STATE_ADDRESS_KIND] == 1)
        c->state[CHILDBUS_STATE_OWN_ADDRESS] = 0;
}

static void past_the_state(const struct call *c, struct lengths n)
{
    (void)n;
    if (c->state_len > CHILDBUS_STATE_BYTES)
        c->state[CHILDBUS_STATE_BYTES] = 0;
}

/* A command that got this status. */
static int answered(const struct call *c, uint8_t code, uint8_t status)
{
    uint32_t skip = c->profile[CHILDBUS_PROFILE_BUS] == CHILDBUS_RS485;
    return *c->made > 0 && c->frame_len > skip && c->frame[skip] == code && c->out[skip] == status;
}

/* A write to flash address 0. */
static int at_zero(const struct call *c)
{
    uint32_t skip = c->profile[CHILDBUS_PROFILE_BUS] == CHILDBUS_RS485;
    return c->frame_len > skip + 3 && c->frame[skip + 1] == 0 && c->frame[skip + 2] == 0;
}

/* The same frame once more, for its reply. */
static void again(const struct call *c)
{
    right_receive(c->profile, c->profile_len, c->state, c->state_len, c->address, c->frame, c->frame_len, c->flash, c->flash_len,
                  c->out, c->out_len, c->made);
}

/* The last page is filled up with 0xFF. */
static void finished_padding(const struct call *c, struct lengths n)
{
    uint32_t page = c->profile[CHILDBUS_PROFILE_PAGE] == CHILDBUS_PAGE_64 ? CHILDBUS_PAGE : CHILDBUS_PAGE_MAX;
    uint32_t next = number_at(c->state, CHILDBUS_STATE_NEXT);
    if (answered(c, CHILDBUS_CMD_FINALIZE, CHILDBUS_OK) && n.old_w > 0)
        memset(c->flash + number_at(c->profile, CHILDBUS_PROFILE_OFFSET) + next, 0xff, page - next % page);
}

/* A finalize counts a page that did not change. */
static void finished_same_counted(const struct call *c, struct lengths n)
{
    uint32_t count = number_at(c->state, CHILDBUS_STATE_ERASE_COUNT), next = number_at(c->state, CHILDBUS_STATE_NEXT);
    if (!answered(c, CHILDBUS_CMD_FINALIZE, CHILDBUS_OK) || n.old_w == 0 || count + 1 > next ||
        count != number_at(before, CHILDBUS_STATE_ERASE_COUNT))
        return;
    put_number(c->state, CHILDBUS_STATE_ERASE_COUNT, count + 1);
    again(c);
}

/* The count that is told and kept is its low byte. */
static void finished_count_in_a_byte(const struct call *c, struct lengths n)
{
    uint32_t count = number_at(c->state, CHILDBUS_STATE_ERASE_COUNT);
    (void)n;
    if (!answered(c, CHILDBUS_CMD_FINALIZE, CHILDBUS_OK) || count < 256)
        return;
    put_number(c->state, CHILDBUS_STATE_ERASE_COUNT, count & 0xff);
    again(c);
}

/* A finalize that finds nothing waiting begins the count anew. */
static void finished_count_begun_anew(const struct call *c, struct lengths n)
{
    if (answered(c, CHILDBUS_CMD_FINALIZE, CHILDBUS_OK) && n.old_w == 0)
        put_number(c->state, CHILDBUS_STATE_ERASE_COUNT, 0);
}

/* A write at 0 keeps the count, as far as the state allows it. */
static void finished_count_kept(const struct call *c, struct lengths n)
{
    uint32_t most = number_at(c->state, CHILDBUS_STATE_NEXT) - n.w;
    uint32_t sum = number_at(c->state, CHILDBUS_STATE_ERASE_COUNT) + number_at(before, CHILDBUS_STATE_ERASE_COUNT);
    if (answered(c, CHILDBUS_CMD_WRITE, CHILDBUS_OK) && at_zero(c))
        put_number(c->state, CHILDBUS_STATE_ERASE_COUNT, sum < most ? sum : most);
}

static void finished_set_address_forgets(const struct call *c, struct lengths n)
{
    (void)n;
    if (answered(c, CHILDBUS_CMD_SET_ADDRESS, CHILDBUS_OK))
        put_number(c->state, CHILDBUS_STATE_WAITING_COUNT, 0);
}

static void finished_refused_write_forgets(const struct call *c, struct lengths n)
{
    (void)n;
    if (answered(c, CHILDBUS_CMD_WRITE, CHILDBUS_INVALID_ARGUMENTS) && at_zero(c))
        put_number(c->state, CHILDBUS_STATE_WAITING_COUNT, 0);
}

/* The byte before O changes with the flash. */
static void finished_byte_before_o(const struct call *c, struct lengths n)
{
    uint32_t first = number_at(c->profile, CHILDBUS_PROFILE_OFFSET);
    if (answered(c, CHILDBUS_CMD_FINALIZE, CHILDBUS_OK) && n.old_w > 0 && first > 0)
        c->flash[first - 1] ^= 1;
}

/* The application is not started. */
static void finished_not_started(const struct call *c, struct lengths n)
{
    (void)n;
    if (before[CHILDBUS_STATE_RUNNING] == 0)
        c->state[CHILDBUS_STATE_RUNNING] = 0;
}

/* After 0 and 1, or after the numbers from 15 on, where no byte may change; those of ANSWERS are done by the five calls below. */
enum { ANSWERS = 2 };
static const struct wrong {
    const char *name;
    int dropped;
    void (*change)(const struct call *c, struct lengths n);
} wrongs[] = {
    {"zeros", 0, zeros},
    {"committed_page", 0, committed_page},
    {"no_longer_waiting", 0, no_longer_waiting},
    {"one_behind_w", 0, one_behind_w},
    {"last_waiting_place", 0, last_waiting_place},
    {"shorter_reply", 0, shorter_reply},
    {"no_reply", 0, no_reply},
    {"one_behind_the_reply", 0, one_behind_the_reply},
    {"rs485_reply_kept", 0, rs485_reply_kept},
    {"byte_3", 0, byte_3},
    {"own_address", 0, own_address},
    {"past_the_state", 0, past_the_state},
    {"dropped_byte_3", 1, byte_3},
    {"dropped_zeros", 1, zeros},
    {"finished_padding", 0, finished_padding},
    {"finished_same_counted", 0, finished_same_counted},
    {"finished_count_in_a_byte", 0, finished_count_in_a_byte},
    {"finished_count_begun_anew", 0, finished_count_begun_anew},
    {"finished_count_kept", 0, finished_count_kept},
    {"finished_set_address_forgets", 0, finished_set_address_forgets},
    {"finished_refused_write_forgets", 0, finished_refused_write_forgets},
    {"finished_byte_before_o", 0, finished_byte_before_o},
    {"finished_not_started", 0, finished_not_started},
    {"silence_general_is_foreign", ANSWERS, NULL},
    {"silence_reset_while_running", ANSWERS, NULL},
    {"silence_another_type_is_none", ANSWERS, NULL},
    {"silence_by_number_alone", ANSWERS, NULL},
    {"lost_127_of_128", ANSWERS, NULL},
    {"lost_none_to_a_start", ANSWERS, NULL},
    {"lost_writes_a_byte", ANSWERS, NULL},
    {"erased_nothing_by_any_count", ANSWERS, NULL},
    {"erased_nothing_by_any_status", ANSWERS, NULL},
    {"upload_end_past_s", ANSWERS, NULL},
    {"upload_end_partly_is_unchanged", ANSWERS, NULL},
    {"page_changed_by_low_bits", ANSWERS, NULL},
    {"page_changed_of_64", ANSWERS, NULL},
    {"page_changed_past_the_end", ANSWERS, NULL},
};

static const struct wrong *named(void)
{
    const char *name = getenv("CHILDBUS_WRONG");
    if (name == NULL)
        return NULL;
    for (size_t i = 0; i < sizeof wrongs / sizeof wrongs[0]; i++)
        if (strcmp(name, wrongs[i].name) == 0)
            return &wrongs[i];
    fprintf(stderr, "wrong: there is no fault %s\n", name);
    exit(2);
}

static const struct wrong *chosen(void)
{
    static const struct wrong *wrong;
    static int asked;
    if (!asked)
        wrong = named();
    asked = 1;
    return wrong;
}

static int is(const char *name)
{
    return chosen() != NULL && strcmp(chosen()->name, name) == 0;
}

static void keep(const struct call *c)
{
    memcpy(before, c->state, c->state_len < sizeof before ? c->state_len : sizeof before);
}

static uint32_t changed(uint32_t number, const struct call *c)
{
    const struct wrong *wrong = chosen();
    if (wrong != NULL && wrong->dropped != ANSWERS && (wrong->dropped ? number >= CHILDBUS_FRAME_SHORT : number <= CHILDBUS_NOTHING))
        wrong->change(c, (struct lengths){number_at(c->state, CHILDBUS_STATE_WAITING_COUNT),
                                          number_at(c->state, CHILDBUS_STATE_REPLY_LENGTH),
                                          number_at(before, CHILDBUS_STATE_WAITING_COUNT),
                                          number_at(before, CHILDBUS_STATE_REPLY_LENGTH)});
    return number;
}

uint32_t childbus_receive(const uint8_t *profile, uint64_t profile_len, uint8_t *state, uint64_t state_len, uint32_t address,
                          const uint8_t *frame, uint64_t frame_len, uint8_t *flash, uint64_t flash_len, uint8_t *out,
                          uint64_t out_len, uint64_t *made)
{
    struct call c = {profile, profile_len, state, state_len, address, frame, frame_len, flash, flash_len, out, out_len, made};
    keep(&c);
    return changed(right_receive(profile, profile_len, state, state_len, address, frame, frame_len, flash, flash_len, out, out_len,
                                 made), &c);
}

uint32_t childbus_receive_tally(const uint8_t *profile, uint64_t profile_len, uint8_t *state, uint64_t state_len, uint32_t address,
                                const uint8_t *frame, uint64_t frame_len, uint8_t *flash, uint64_t flash_len, uint8_t *out,
                                uint64_t out_len, uint8_t *tally, uint64_t tally_len, uint64_t *made)
{
    struct call c = {profile, profile_len, state, state_len, address, frame, frame_len, flash, flash_len, out, out_len, made};
    keep(&c);
    return changed(right_receive_tally(profile, profile_len, state, state_len, address, frame, frame_len, flash, flash_len, out,
                                       out_len, tally, tally_len, made), &c);
}

uint32_t childbus_silence(const uint8_t *profile, uint64_t profile_len, const uint8_t *state, uint64_t state_len, uint32_t address,
                          const uint8_t *frame, uint64_t frame_len, uint32_t number)
{
    uint32_t why = right_silence(profile, profile_len, state, state_len, address, frame, frame_len, number);
    if (why == CHILDBUS_SILENCE_GENERAL && is("silence_general_is_foreign"))
        return CHILDBUS_SILENCE_FOREIGN;
    if (why == CHILDBUS_SILENCE_RESET && state_len >= CHILDBUS_STATE_BYTES && state[CHILDBUS_STATE_RUNNING] == 1 &&
        is("silence_reset_while_running"))
        return CHILDBUS_SILENCE_RUNNING;
    if (why == CHILDBUS_SILENCE_TYPE && is("silence_another_type_is_none"))
        return CHILDBUS_SILENCE_NONE;
    /* 15 to 18 by themselves, whatever the frame is */
    if (number >= CHILDBUS_FRAME_SHORT && number <= CHILDBUS_FRAME_FOREIGN && is("silence_by_number_alone"))
        return CHILDBUS_SILENCE_SHORT + number - CHILDBUS_FRAME_SHORT;
    return why;
}

uint32_t childbus_lost(const uint8_t *profile, uint64_t profile_len, const uint8_t *before_call, uint64_t before_len,
                       const uint8_t *after, uint64_t after_len, const uint8_t *flash, uint64_t flash_len)
{
    uint32_t count = right_lost(profile, profile_len, before_call, before_len, after, after_len, flash, flash_len);
    if (count == CHILDBUS_PAGE_MAX && is("lost_127_of_128"))
        return count - 1;
    if (after_len >= CHILDBUS_STATE_BYTES && after[CHILDBUS_STATE_RUNNING] == 1 && is("lost_none_to_a_start"))
        return 0;
    if (count > 0 && after_len >= CHILDBUS_STATE_BYTES && is("lost_writes_a_byte"))
        ((uint8_t *)after)[CHILDBUS_STATE_WAITING] ^= 1;
    return count;
}

uint32_t childbus_erased_nothing(const uint8_t *profile, uint64_t profile_len, const uint8_t *frame, uint64_t frame_len,
                                 uint32_t number, const uint8_t *reply, uint64_t reply_len, const uint8_t *after, uint64_t after_len)
{
    static const uint8_t ok[2];
    if (is("erased_nothing_by_any_count"))
        after_len = 0;
    if (is("erased_nothing_by_any_status")) {
        reply = ok;
        reply_len = sizeof ok;
        if (profile_len > 0 && profile[CHILDBUS_PROFILE_BUS] == CHILDBUS_I2C)
            reply_len = 1;
    }
    return right_erased_nothing(profile, profile_len, frame, frame_len, number, reply, reply_len, after, after_len);
}

/* The profile's first 36 bytes, if there are so many. */
static uint64_t copied(uint8_t *to, const uint8_t *profile, uint64_t profile_len)
{
    uint64_t len = profile_len < CHILDBUS_PROFILE_BYTES ? profile_len : CHILDBUS_PROFILE_BYTES;
    memcpy(to, profile, len);
    return len;
}

uint32_t childbus_upload_end(const uint8_t *profile, uint64_t profile_len, const uint8_t *image, uint64_t image_len,
                             const uint8_t *earlier, uint64_t earlier_len, const uint8_t *flash, uint64_t flash_len)
{
    uint8_t other[CHILDBUS_PROFILE_BYTES];
    uint64_t other_len = copied(other, profile, profile_len);
    uint32_t end = right_upload_end(profile, profile_len, image, image_len, earlier, earlier_len, flash, flash_len);
    /* S as long as the image */
    if (end != CHILDBUS_UPLOAD_WHOLE && other_len == sizeof other && is("upload_end_past_s")) {
        for (int i = 0; i < 4; i++)
            other[CHILDBUS_PROFILE_SIZE + i] = (uint8_t)((image_len + 127) / 128 * 128 >> 8 * i);
        if (right_upload_end(other, other_len, image, image_len, earlier, earlier_len, flash, flash_len) == CHILDBUS_UPLOAD_WHOLE)
            return CHILDBUS_UPLOAD_WHOLE;
    }
    if (end == CHILDBUS_UPLOAD_PARTLY && is("upload_end_partly_is_unchanged"))
        return CHILDBUS_UPLOAD_UNCHANGED;
    return end;
}

uint32_t childbus_page_changed(const uint8_t *profile, uint64_t profile_len, uint32_t page, const uint8_t *earlier,
                               uint64_t earlier_len, const uint8_t *flash, uint64_t flash_len)
{
    uint8_t other[CHILDBUS_PROFILE_BYTES];
    uint64_t other_len = copied(other, profile, profile_len);
    if (is("page_changed_by_low_bits"))
        page &= 0xffffff;
    if (other_len == sizeof other && other[CHILDBUS_PROFILE_PAGE] == CHILDBUS_PAGE_128 && is("page_changed_of_64"))
        other[CHILDBUS_PROFILE_PAGE] = CHILDBUS_PAGE_64;
    uint32_t changed = right_page_changed(other, other_len, page, earlier, earlier_len, flash, flash_len);
    if (page > CHILDBUS_FLASH_MAX / CHILDBUS_PAGE && is("page_changed_past_the_end"))
        return 1;
    return changed;
}
