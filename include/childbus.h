/*
 * childbus.h - the Childbus bootloader protocol 2.2, board and master, on I2C and RS485.
 *
 * Every function is total: any numbers and any bytes, in buffers of any length, get an answer. No function allocates,
 * keeps anything between calls, or calls back. All that a board remembers is in the state buffer and in the flash.
 *
 * Buffers
 *   A buffer is a pointer and a length in bytes. Pointers are not NULL, not even with length 0. The buffers of one call
 *   and the places of its single results do not overlap. Only buffers without const are written. Profile, state and
 *   tally have a layout of their own, below; their numbers are little-endian. A buffer's alignment does not matter (on a
 *   Cortex-M3 or M4 as long as unaligned accesses don't fault: CCR.UNALIGN_TRP is 0, as after reset).
 *
 * Widths
 *   Lengths, places and *made, *start and *len have 64 bits on every machine, those with pointers of 32 bits too; every
 *   other number has 32. All bits of an answer and of a result mean something. The 64-bit results (made, start, len) stand
 *   in objects of type uint64_t: any such object is aligned well enough; a cast pointer to other bytes may not be.
 *   What an old caller must change: these were of type size_t, which has 64 bits where the library ran until now, x86-64.
 *   With a compiler whose uint64_t is another type than size_t, the variables for made, start and len become uint64_t.
 *
 * Answers
 *   Every function answers one of the numbers below, except childbus_two_reads and the five of "What must not be missed",
 *   at the end. With a number of 2 or above every buffer
 *   is as it was before the call (the tally aside, which counts 15 to 18), and single results are 0. 2 to 14 say that
 *   the call was refused. 15 to 18 are everyday silence on a shared line: the board has nothing to send, and nothing is
 *   wrong with the firmware.
 *
 * Not here: time (t3.5, the 80 ms, clock stretching), pins, the application. The caller finds the ends of frames.
 */
#ifndef CHILDBUS_H
#define CHILDBUS_H

#include <stddef.h>
#include <stdint.h>

#ifdef __cplusplus
extern "C" {
#endif

/* Numbers that calls answer. */
#define CHILDBUS_MADE                   0u  /* reply or request made: the first *made bytes of the output, its rest
                                               untouched. Decoder: decoded. Version rule: known. childbus_fresh: done */
#define CHILDBUS_NOTHING                1u  /* nothing to send: the output is untouched; the state may have changed */
#define CHILDBUS_PROFILE_OUT_OF_RANGE   2u  /* profile out of range */
#define CHILDBUS_FLASH_SHORT            3u  /* flash shorter than O + S */
#define CHILDBUS_STATE_MALFORMED        4u  /* malformed state */
#define CHILDBUS_OUT_SHORT              5u  /* reply buffer shorter than M */
#define CHILDBUS_NO_ROOM                6u  /* the request doesn't fit the output */
#define CHILDBUS_ARGUMENT_OUT_OF_RANGE  7u  /* request argument out of range, or a command that isn't served */
#define CHILDBUS_REPLY_SHORT            8u  /* reply shorter than 3 (I2C) or 5 (RS485) */
#define CHILDBUS_REPLY_CRC_WRONG        9u  /* reply CRC wrong */
#define CHILDBUS_REPLY_FOREIGN         10u  /* reply from another address */
#define CHILDBUS_REPLY_LENGTH_WRONG    11u  /* the length byte doesn't fit the reply */
#define CHILDBUS_REPLY_STATUS_UNKNOWN  12u  /* status above 5 */
#define CHILDBUS_RESULTS_MISSING       13u  /* OK without all of the command's fixed part */
#define CHILDBUS_VERSION_UNKNOWN       14u  /* version not known */
#define CHILDBUS_FRAME_SHORT           15u  /* RS485: frame shorter than 4, nothing to send */
#define CHILDBUS_FRAME_LONG            16u  /* RS485: frame longer than M, nothing to send */
#define CHILDBUS_FRAME_CRC_WRONG       17u  /* RS485: frame with a wrong CRC, nothing to send */
#define CHILDBUS_FRAME_FOREIGN         18u  /* RS485: whole frame to another address, nothing to send */
#define CHILDBUS_APPLICATION_RUNNING   40u  /* version 0.0: an application answers, not the bootloader */

/* Statuses: the byte with which a reply begins (on RS485 after the address). This board has results with OK only. */
#define CHILDBUS_OK                    0u
#define CHILDBUS_COMMAND_FAILED        1u  /* never sent by this board; the decoder takes it */
#define CHILDBUS_COMMAND_NOT_SUPPORTED 2u  /* unknown command, one that isn't served, or serial with no serial */
#define CHILDBUS_INVALID_TRANSFER      3u  /* I2C: a write shorter than 2 or longer than M */
#define CHILDBUS_INVALID_CRC           4u  /* I2C: wrong CRC (RS485: no reply) */
#define CHILDBUS_INVALID_ARGUMENTS     5u  /* wrong argument length, or arguments that the command's own rule refuses */

/* Commands. 0x02, 0x0a, 0x0b, 0x0d, 0x0e and all above are not served. */
#define CHILDBUS_CMD_VERSION       0x00u  /* results: major, minor */
#define CHILDBUS_CMD_SET_ADDRESS   0x01u  /* new address, not a reserved one; hardware type (0: any) */
#define CHILDBUS_CMD_HARDWARE_INFO 0x03u  /* results: type and compatible revision, bootloader version, two-byte S */
#define CHILDBUS_CMD_SERIAL        0x04u  /* results: the serial */
#define CHILDBUS_CMD_START         0x05u  /* starts the application: no reply */
#define CHILDBUS_CMD_WRITE         0x06u  /* flash address in two bytes, data */
#define CHILDBUS_CMD_FINALIZE      0x07u  /* results: the erase count in two bytes */
#define CHILDBUS_CMD_READ          0x08u  /* flash address in two bytes, length; results: that many bytes */
#define CHILDBUS_CMD_REVISION      0x09u  /* results: the actual revision */
#define CHILDBUS_CMD_LONGEST       0x0cu  /* results: M in two bytes */

#define CHILDBUS_I2C   0u
#define CHILDBUS_RS485 1u

/* The general call's address, and the range in which a board without an address of its own listens. Set address refuses
 * reserved addresses: 0 to 7 and 120 to 127 on I2C, 0 and 248 to 255 on RS485. */
#define CHILDBUS_GENERAL_CALL  0u
#define CHILDBUS_DEFAULT_FIRST 8u
#define CHILDBUS_DEFAULT_LAST 15u

#define CHILDBUS_PAGE          64u     /* bytes of a flash page, if byte 6 of the profile is 0 */
#define CHILDBUS_PAGE_MAX      128u    /* bytes of the largest flash page */
#define CHILDBUS_FRAME_MIN     32u     /* smallest M */
#define CHILDBUS_FRAME_MAX     256u    /* largest M */
#define CHILDBUS_FLASH_MAX     65472u  /* largest S, and largest O */
#define CHILDBUS_SERIAL_MAX    16u

/*
 * The profile: what the board is built as. The caller fills it; no call changes it.
 *
 *    0      bus: 0 I2C, 1 RS485
 *    1      hardware type, 1 to 255
 *    2      compatible revision
 *    3      actual revision
 *    4      bootloader version
 *    5      length of the serial, 0 to 16
 *    6      page: 0 for pages of 64 bytes, 1 for pages of 128
 *    7      set to 0; not looked at today
 *    8..11  M, longest frame, 32 to 256: on RS485 from address to CRC, on I2C without the address
 *   12..15  S, working flash, a multiple of the page: 64 to 65472, with pages of 128 bytes 128 to 65408
 *   16..19  O, its offset in the lent flash, a multiple of the page: 0 to 65472, with pages of 128 bytes to 65408
 *   20..35  serial; bytes beyond its length: set to 0; not looked at today
 *
 * A buffer shorter than CHILDBUS_PROFILE_BYTES, or a field out of its range, is number 2. Bytes past 36 are not looked
 * at. Fill the profile with 0 before its fields are set: a later version may give these bytes a meaning.
 *
 * What an old caller must change: libraries without CHILDBUS_PROFILE_PAGE in their header did not look at byte 6 and had
 * pages of 64 bytes. A caller that set it to 0, as their header asked, keeps working; any other value there was ignored
 * and is 128-byte pages or number 2 now. The state has grown, see below.
 */
#define CHILDBUS_PROFILE_BYTES 36u
#define CHILDBUS_PROFILE_BUS            0
#define CHILDBUS_PROFILE_HARDWARE       1
#define CHILDBUS_PROFILE_COMPATIBLE     2
#define CHILDBUS_PROFILE_ACTUAL         3
#define CHILDBUS_PROFILE_BOOTLOADER     4
#define CHILDBUS_PROFILE_SERIAL_LENGTH  5
#define CHILDBUS_PROFILE_PAGE           6
#define CHILDBUS_PROFILE_LONGEST        8
#define CHILDBUS_PROFILE_SIZE          12
#define CHILDBUS_PROFILE_OFFSET        16
#define CHILDBUS_PROFILE_SERIAL        20

/* Values of the profile's page byte. */
#define CHILDBUS_PAGE_64  0u
#define CHILDBUS_PAGE_128 1u

/*
 * The state: what the board remembers between calls. childbus_fresh makes it, childbus_receive changes it; the caller
 * keeps it and writes nothing into it. Firmware looks at the running byte after each childbus_receive, and starts the
 * application when it is 1.
 *
 *    0       address kind: 0 default range (8 to 15), 1 own address
 *    1       own address; means something only with kind 1
 *    2       running: 0 the bootloader, 1 the application
 *    3       means nothing
 *    4..7    next: where the next write of the upload goes
 *    8..11   w: how many bytes wait to be committed
 *   12..15   erase count
 *   16..19   length of the last reply (I2C; 0 means none)
 *   20..147  waiting bytes, the first w of them
 *  148..403  last reply, as many bytes as its length says
 *
 * Number 4 is given for a buffer shorter than CHILDBUS_STATE_BYTES, an address kind or a running byte above 1,
 * next over S, w over next mod page, count over next - w, a last reply over M bytes, and any on RS485. Bytes past 404
 * are never touched. A call answered 2 or above leaves every byte as it was. A call answered 0 or 1 touches only bytes
 * that mean something after it: byte 3, the own address with kind 0, waiting bytes beyond w and reply bytes beyond its
 * length hold what they held before. No answer depends on them.
 *
 * The state does not hold its page. One made under another page is judged by the rule above alone: number 4, or taken,
 * and then its waiting bytes still go to their own places, next - w .. next - 1.
 *
 * What an old caller must change: the state had 340 bytes in libraries without CHILDBUS_PROFILE_PAGE. A buffer of
 * CHILDBUS_STATE_BYTES grows when its program is compiled with this header; one of 340 bytes is answered 4. State bytes
 * kept from an older library mean something else here: begin with childbus_fresh.
 */
#define CHILDBUS_STATE_BYTES 404u
#define CHILDBUS_STATE_ADDRESS_KIND   0
#define CHILDBUS_STATE_OWN_ADDRESS    1
#define CHILDBUS_STATE_RUNNING        2
#define CHILDBUS_STATE_NEXT           4
#define CHILDBUS_STATE_WAITING_COUNT  8
#define CHILDBUS_STATE_ERASE_COUNT   12
#define CHILDBUS_STATE_REPLY_LENGTH  16
#define CHILDBUS_STATE_WAITING       20
#define CHILDBUS_STATE_REPLY        148

/*
 * The fresh board: default range, not running, all the rest zero. Call it once at power-up.
 *
 *   state, state_len  its first 404 bytes become the fresh state: zeros, also where they mean nothing
 *
 * Answers 0; 4 if the buffer is shorter than 404.
 */
uint32_t childbus_fresh(uint8_t *state, uint64_t state_len);

/*
 * The board: one received frame. On I2C a write by the master, without its address byte; on RS485 the bytes between
 * two silences, address to CRC.
 *
 *   profile, profile_len  the profile
 *   state, state_len      the state, changed in place
 *   address               I2C: the 7-bit address of the write; 128 and above are foreign, 0 is the general call.
 *                         RS485: not looked at
 *   frame, frame_len      the frame, of any length; of a longer one than M the first M + 1 bytes are enough
 *   flash, flash_len      the lent flash, at least O + S bytes. Only O .. O + S - 1 can change
 *   out, out_len          room for the reply, at least M bytes, also where nothing is sent
 *   made                  the reply's length with 0, else 0
 *
 * Answers 0: on RS485 send the first *made bytes of out; on I2C the master reads them (childbus_read). 1: send nothing.
 * 2, 3, 4, 5: refused, tested in this order. 15, 16, 17, 18: send nothing, and why; every byte is as it was. Only on
 * RS485, while not running, tested in this order; 0 is never a foreign address, so a general call of right length and
 * CRC answers 1.
 *
 * What an old caller must change: libraries without childbus_receive_tally answered 1 for these four. A caller that takes
 * every number of 2 or above for a fault of the firmware has to take 15 to 18 for silence, as 1. childbus_silent tells.
 *
 * After each call look at state[CHILDBUS_STATE_RUNNING]: start answers 1, like many other frames, and this byte alone
 * tells it apart. When it has become 1, start the application; bytes that waited are lost by then. While it is 1 only
 * the general-call reset is executed, and makes it 0; any other frame answers 1 and changes nothing.
 *
 * Set address to a reserved address (0 to 7 and 120 to 127 on I2C, its top bit dropped; 0 and 248 to 255 on RS485) is
 * answered with status INVALID_ARGUMENTS, after the hardware type is tested: another type gets no reply. Address and
 * upload are kept, so on I2C that reply is read at the old address. A board whose state has such an address already
 * listens there (at 0: to general calls only).
 */
uint32_t childbus_receive(const uint8_t *profile, uint64_t profile_len, uint8_t *state, uint64_t state_len,
                          uint32_t address, const uint8_t *frame, uint64_t frame_len, uint8_t *flash, uint64_t flash_len,
                          uint8_t *out, uint64_t out_len, uint64_t *made);

/* Nothing to send and nothing wrong with the call: 1, and on RS485 15 to 18. */
static inline int childbus_silent(uint32_t number)
{
    return number == CHILDBUS_NOTHING || (number >= CHILDBUS_FRAME_SHORT && number <= CHILDBUS_FRAME_FOREIGN);
}

/*
 * The tally: how many received frames a board dropped, by kind, and how many it answered. Five counters of two bytes,
 * little-endian, each of which stops at 65535. The caller keeps it beside the state and clears it (ten bytes of 0) when
 * it likes; any ten bytes are a tally. No reset clears it.
 *
 *    0..1   frames answered 15, too short
 *    2..3   frames answered 16, too long
 *    4..5   frames answered 17, wrong CRC
 *    6..7   frames answered 18, foreign address
 *    8..9   frames answered 0; the only one that rises on I2C
 */
#define CHILDBUS_TALLY_BYTES 10u
#define CHILDBUS_TALLY_SHORT    0
#define CHILDBUS_TALLY_LONG     2
#define CHILDBUS_TALLY_CRC      4
#define CHILDBUS_TALLY_FOREIGN  6
#define CHILDBUS_TALLY_ANSWERED 8

/*
 * The board: one received frame, counted. All but the tally is exactly childbus_receive's: number, state, flash, out and
 * *made, whatever the tally is.
 *
 *   profile to out, made  as for childbus_receive
 *   tally, tally_len      the tally, changed in place: the counter of the answered number rises by one, unless it stands
 *                         at 65535; no counter rises with 1 to 5. A buffer shorter than CHILDBUS_TALLY_BYTES is no
 *                         tally: nothing is counted and no byte of it changes. Bytes past 10 are never touched
 *
 * I2C reads are not counted: they are no received frames.
 */
uint32_t childbus_receive_tally(const uint8_t *profile, uint64_t profile_len, uint8_t *state, uint64_t state_len,
                                uint32_t address, const uint8_t *frame, uint64_t frame_len, uint8_t *flash,
                                uint64_t flash_len, uint8_t *out, uint64_t out_len, uint8_t *tally, uint64_t tally_len,
                                uint64_t *made);

/*
 * The board: an I2C read at an address. It hands out the last reply and keeps it as it is.
 *
 *   profile, state, flash, out  as for childbus_receive; state and flash are only read
 *   address                     the 7-bit address of the read
 *   made                        the reply's length with 0, else 0
 *
 * Answers 0: the first *made bytes of out go to the master. 1: no last reply, a foreign address, address 0, running, or
 * an RS485 profile. 2, 3, 4, 5: refused, tested in this order.
 */
uint32_t childbus_read(const uint8_t *profile, uint64_t profile_len, const uint8_t *state, uint64_t state_len,
                       uint32_t address, const uint8_t *flash, uint64_t flash_len, uint8_t *out, uint64_t out_len,
                       uint64_t *made);

/*
 * The master: a request with its CRC. On I2C the destination is not in the request: the caller addresses the write.
 *
 *   bus               0 I2C, 1 RS485
 *   longest           the board's M
 *   code              the command
 *   destination       the board's address: 1 to 127 on I2C, 1 to 255 on RS485
 *   a, b              set address: a new address (8 to 119 on I2C, 1 to 247 on RS485: the others are reserved, or over
 *                     the bus's range), b hardware type (to 255)
 *                     write: a flash address (to 65535)
 *                     read: a flash address (to 65535), b length (to M - 3 on I2C, to M - 5 on RS485)
 *                     not looked at where nothing is said
 *   data, data_len    write: the data, at most M - 4 bytes on I2C, M - 6 on RS485. Other commands: not looked at
 *   out, out_len      room for the request
 *   made              the request's length with 0, else 0
 *
 * Answers 0: the request is the first *made bytes of out. 2: bus above 1, or M out of range. 7: a command that isn't
 * served, destination 0 or out of range, an argument out of range, a reserved new address, a request over M. 6: the
 * request is longer than out_len. Tested in the order 2, 7, 6.
 */
uint32_t childbus_encode(uint32_t bus, uint32_t longest, uint32_t code, uint32_t destination, uint32_t a, uint32_t b,
                         const uint8_t *data, uint64_t data_len, uint8_t *out, uint64_t out_len, uint64_t *made);

/*
 * The master: a general call, to all boards at address 0; no board replies.
 *
 *   bus, longest   as for childbus_encode
 *   reset          0: reset address (default range again, upload kept). Anything else: reset (the fresh state)
 *   out, out_len   room for the request: 1 byte on I2C, 4 on RS485
 *   made           the request's length with 0, else 0
 *
 * Answers 0, 2 or 6, tested in the order 2, 6.
 */
uint32_t childbus_general(uint32_t bus, uint32_t longest, uint32_t reset, uint8_t *out, uint64_t out_len, uint64_t *made);

/*
 * The master: a reply taken apart. The results stay in the reply: *len bytes from reply[*start] on.
 *
 *   bus                0 I2C, 1 RS485; any other is number 7
 *   code               the command that was sent
 *   address            RS485: the address it was sent to. I2C: not looked at
 *   asked              read: the length asked for. Other commands: not looked at
 *   reply, reply_len   the reply. After its CRC bytes are ignored on I2C, not allowed on RS485
 *   status             0 to 5
 *   start, len         the results. Results beside a status other than OK, and more than the fixed part, are handed out
 *
 * Fixed parts: revision 1; version, finalize and M 2; hardware info 5; read the length asked; any other 0.
 * Answers 0, or 7, 8, 11, 9, 10, 12, 13, tested in this order; then status, start and len are 0.
 */
uint32_t childbus_decode(uint32_t bus, uint32_t code, uint32_t address, uint32_t asked, const uint8_t *reply,
                         uint64_t reply_len, uint32_t *status, uint64_t *start, uint64_t *len);

/*
 * The master: one reply on I2C, read twice. Decodes means that childbus_decode answers 0, whatever the status.
 *
 *   code, asked          as for childbus_decode
 *   first, first_len     the first read
 *   second, second_len   the second read
 *   start, len           the results: *len bytes from *start on, in the read that the answer names; both 0 with answer 0
 *
 * Answers 1: the first read decodes. 2: the first doesn't, the second does. 0: neither does. These are no numbers of
 * the table above.
 *
 * It gives no status, and the results may stand beside a status other than OK. The status is what childbus_decode gives
 * for the read that the answer names, with CHILDBUS_I2C, the same code and asked; start and len are the same there.
 */
uint32_t childbus_two_reads(uint32_t code, uint32_t asked, const uint8_t *first, uint64_t first_len,
                            const uint8_t *second, uint64_t second_len, uint64_t *start, uint64_t *len);

/*
 * The version rule: minors 0 and 1 of major 1 and 0 to 2 of major 2 are known; a higher one counts as the highest.
 * Exactly 0.0 is an application's: the board is well, and its application runs (childbus_reset_running).
 *
 *   major, minor               as the board answered to CHILDBUS_CMD_VERSION, with status OK
 *   known_major, known_minor   the version it counts as; 0 and 0 with answers 14 and 40
 *
 * Answers 0; 40 for 0.0; 14 for any other. Libraries without childbus_reset_running answered 14 for 0.0 too: a caller
 * that takes every number but 0 for "not known" needs no change; one that looks for 14 alone has to look for 40 too.
 */
uint32_t childbus_version(uint32_t major, uint32_t minor, uint32_t *known_major, uint32_t *known_minor);

/*
 * The master: what to send to a board that answered this version. Where an application runs (0.0) it is the
 * general-call reset, the same bytes that childbus_general makes; send it on I2C to address 0. It resets every board on
 * the bus: their own addresses and open uploads are gone, flash is as it was. Then ask the version again, in the default
 * range.
 *
 *   bus, longest   as for childbus_encode
 *   major, minor   as the board answered to CHILDBUS_CMD_VERSION, with status OK
 *   out, out_len   room for the request: 1 byte on I2C, 4 on RS485
 *   made           the request's length with 0, else 0
 *
 * Answers 0; 1 for a known version: the bootloader runs, and there is nothing to send; or 2, 14, 6, tested in this
 * order. 6 only where there is a request to write.
 */
uint32_t childbus_reset_running(uint32_t bus, uint32_t longest, uint32_t major, uint32_t minor, uint8_t *out,
                                uint64_t out_len, uint64_t *made);

/*
 * What must not be missed. Five calls that tell a technician, or a program that speaks to one, what a call meant: silence
 * of a board that is well, bytes that are lost, a finalize that erased nothing, what the flash holds after an upload, and
 * which pages changed. They are decided from the call and from state and flash before and after it, never from the
 * master's copy of a reply, which may be damaged. They change no byte, refuse nothing, and answer none of the numbers above
 * but what is said with each. A profile buffer shorter than CHILDBUS_PROFILE_BYTES, or with a bus or a page byte above 1,
 * reads as one on I2C with M, page, S and O 0. Other fields are taken as they are, also where the board answers 2.
 */

/* Answers of childbus_silence. 1 to 7: the frame was not for this board or not whole, or the application runs; the board is
 * well. Nothing changed but, with 7 on I2C, the last reply, which is gone. */
#define CHILDBUS_SILENCE_NONE     0u  /* no silence: the frame got a reply, or the call was refused */
#define CHILDBUS_SILENCE_RUNNING  1u  /* the application runs, and the frame is not the reset */
#define CHILDBUS_SILENCE_SHORT    2u  /* RS485: shorter than any request (number 15) */
#define CHILDBUS_SILENCE_LONG     3u  /* RS485: longer than M (number 16) */
#define CHILDBUS_SILENCE_CRC      4u  /* RS485: wrong CRC (number 17) */
#define CHILDBUS_SILENCE_FOREIGN  5u  /* for another board: on RS485 number 18, on I2C number 1 */
#define CHILDBUS_SILENCE_GENERAL  6u  /* a general call that is neither reset nor reset address */
#define CHILDBUS_SILENCE_TYPE     7u  /* set address with another board's hardware type */
#define CHILDBUS_SILENCE_RESET    8u  /* reset or reset address, done: no board replies to a general call */
#define CHILDBUS_SILENCE_START    9u  /* start, done: it has no reply */

/*
 * Why a received frame got no reply.
 *
 *   profile, profile_len   the profile
 *   state, state_len       the state before the frame; a buffer that holds no state reads as a fresh board's
 *   address                as for childbus_receive
 *   frame, frame_len       the frame as it reached the board
 *   number                 what childbus_receive answered; CHILDBUS_SILENCE_NONE for any but 1 and 15 to 18
 *
 * If it answered so, the reason is the right one. With another call's number a command to this board gets
 * CHILDBUS_SILENCE_TYPE if it is set address, CHILDBUS_SILENCE_START if it is start, else CHILDBUS_SILENCE_NONE.
 */
uint32_t childbus_silence(const uint8_t *profile, uint64_t profile_len, const uint8_t *state, uint64_t state_len,
                          uint32_t address, const uint8_t *frame, uint64_t frame_len, uint32_t number);

/*
 * How many bytes are lost: they waited in the state before a call (or a power cut), and after it neither wait nor stand
 * in flash at their place. At most CHILDBUS_PAGE_MAX.
 *
 *   profile, profile_len   the profile: its O
 *   before, before_len     the state before; a buffer shorter than CHILDBUS_STATE_BYTES has no waiting bytes. A w above
 *                          CHILDBUS_PAGE_MAX is taken as CHILDBUS_PAGE_MAX; with next below w their places begin at 0
 *   after, after_len       the state after, read the same way
 *   flash, flash_len       the lent flash after
 */
uint32_t childbus_lost(const uint8_t *profile, uint64_t profile_len, const uint8_t *before, uint64_t before_len,
                       const uint8_t *after, uint64_t after_len, const uint8_t *flash, uint64_t flash_len);

/*
 * Answers 1 if a call is a finalize that was answered OK and whose erase count is 0: the flash held these bytes already.
 * Else 0.
 *
 *   profile, profile_len   the profile: its bus
 *   frame, frame_len       the frame as it reached the board
 *   number                 what childbus_receive answered
 *   reply, reply_len       the reply as the board made it
 *   after, after_len       the state after; a buffer shorter than CHILDBUS_STATE_BYTES has erase count 0
 */
uint32_t childbus_erased_nothing(const uint8_t *profile, uint64_t profile_len, const uint8_t *frame, uint64_t frame_len,
                                 uint32_t number, const uint8_t *reply, uint64_t reply_len, const uint8_t *after,
                                 uint64_t after_len);

/* Answers of childbus_upload_end. */
#define CHILDBUS_UPLOAD_WHOLE     0u  /* the working flash begins with the image */
#define CHILDBUS_UPLOAD_PARTLY    1u  /* it does not, and has changed since the first write */
#define CHILDBUS_UPLOAD_UNCHANGED 2u  /* it does not, and is as it was */

/*
 * What the flash holds at the end of an upload, whether it broke off or not.
 *
 *   profile, profile_len   the profile: its S and O
 *   image, image_len       the image
 *   earlier, earlier_len   the lent flash before the first write
 *   flash, flash_len       the lent flash now
 */
uint32_t childbus_upload_end(const uint8_t *profile, uint64_t profile_len, const uint8_t *image, uint64_t image_len,
                             const uint8_t *earlier, uint64_t earlier_len, const uint8_t *flash, uint64_t flash_len);

/*
 * Answers 1 if a page of the working flash is another one in two copies of the lent flash, else 0; 0 for a page that
 * neither has.
 *
 *   profile, profile_len   the profile: its page and O
 *   page                   the page's number: its first byte is at flash address page * the profile's page
 *   earlier, earlier_len   the lent flash before
 *   flash, flash_len       the lent flash now
 */
uint32_t childbus_page_changed(const uint8_t *profile, uint64_t profile_len, uint32_t page, const uint8_t *earlier,
                               uint64_t earlier_len, const uint8_t *flash, uint64_t flash_len);

#ifdef __cplusplus
}
#endif

#endif
