//! Profile, state and tally as byte buffers, by the layouts in include/childbus.h.

use rules::model::*;
use rules::rng::Rng;
use rules::tally::Tally as Counters;
use std::ops::Range;

pub const PROFILE_BYTES: usize = 36;
pub const STATE_BYTES: usize = 404;
pub const TALLY_BYTES: usize = 10;
/// Places in the profile and in the state.
pub const PAGE_BYTE: usize = 6;
const WAITING: Range<usize> = 20..148;
const REPLY: Range<usize> = 148..STATE_BYTES;

/// The profile in bytes. Ignored bytes, and up to three past the end, hold anything.
pub fn profile_bytes(p: &Profile) -> Vec<u8> {
    let mut rng = Rng::new(u64::from(p.m) ^ u64::from(p.actual) << 16 ^ u64::from(p.version) << 24);
    let mut b = anything(&mut rng, PROFILE_BYTES);
    b[0] = p.bus as u8;
    b[1] = p.hardware;
    b[2] = p.compatible;
    b[3] = p.actual;
    b[4] = p.version;
    b[5] = p.serial.len() as u8;
    b[PAGE_BYTE] = page_byte(p.page);
    put(&mut b, 8, p.m);
    put(&mut b, 12, p.s);
    put(&mut b, 16, p.o);
    for (place, byte) in b[20..PROFILE_BYTES].iter_mut().zip(&p.serial) {
        *place = *byte;
    }
    b
}

/// The page's byte: 0 for 64, 1 for 128; for every other page its low byte, or 2 and 3 where that would be 0 and 1.
fn page_byte(page: u32) -> u8 {
    match (page, page as u8) {
        (64, _) => 0,
        (128, _) => 1,
        (_, low @ 0..=1) => 2 + low,
        (_, low) => low,
    }
}

/// The page that the byte says. 256 and above stand for bytes that say none: they are out of range.
fn page_of(byte: u8) -> u32 {
    match byte {
        0 => 64,
        1 => 128,
        _ => 256 + u32::from(byte),
    }
}

/// The profile that the bytes say; none if they are too few or the bus is no bus (number 2).
pub fn profile_of(b: &[u8]) -> Option<Profile> {
    if b.len() < PROFILE_BYTES {
        return None;
    }
    let bus = match b[0] {
        0 => Bus::I2c,
        1 => Bus::Rs485,
        _ => return None,
    };
    // a serial over 16 bytes is out of range, whatever its bytes
    let serial = (0..usize::from(b[5])).map(|k| if k < 16 { b[20 + k] } else { 0 }).collect();
    Some(Profile {
        bus,
        m: number(b, 8),
        page: page_of(b[PAGE_BYTE]),
        s: number(b, 12),
        o: number(b, 16),
        hardware: b[1],
        compatible: b[2],
        actual: b[3],
        version: b[4],
        serial,
    })
}

/// The state in bytes. Ignored bytes, and up to three past the end, hold anything.
pub fn state_bytes(s: &State) -> Vec<u8> {
    let mut rng = Rng::new(u64::from(s.next) ^ u64::from(s.w) << 20 ^ u64::from(s.waiting[0]) << 32);
    let mut b = anything(&mut rng, STATE_BYTES);
    b[WAITING].copy_from_slice(&s.waiting);
    b[REPLY].copy_from_slice(&s.reply);
    lay(&mut b, s);
    b
}

/// Lays the state over the bytes. Those that mean nothing stay as they are.
pub fn lay(b: &mut [u8], s: &State) {
    match s.own {
        Own::DefaultRange => b[0] = 0,
        Own::Address(address) => {
            b[0] = 1;
            b[1] = address;
        }
    }
    b[2] = u8::from(s.running);
    put(b, 4, s.next);
    put(b, 8, s.w);
    put(b, 12, s.count);
    put(b, 16, s.reply_len);
    let (waiting, reply) = (s.waiting_bytes(), s.last_reply());
    b[WAITING][..waiting.len()].copy_from_slice(waiting);
    b[REPLY][..reply.len()].copy_from_slice(reply);
}

/// Where the state's buffer means nothing: byte 3, the own address in the default range, behind w, behind the last reply, and past
/// the state.
pub fn dead(s: &State, len: usize) -> [Range<usize>; 5] {
    let own = usize::from(s.own == Own::DefaultRange);
    let (waiting, reply) = (s.waiting_bytes().len(), s.last_reply().len());
    [3..4, 1..1 + own, WAITING.start + waiting..WAITING.end, REPLY.start + reply..REPLY.end, STATE_BYTES..len]
}

/// Why a byte of the buffer means nothing in this state; none if it means something.
pub fn dead_name(s: &State, at: usize) -> Option<String> {
    let k = dead(s, usize::MAX).iter().position(|place| place.contains(&at))?;
    Some(match k {
        0 => "in no state".to_string(),
        1 => "the own address in the default range".to_string(),
        2 => format!("waiting byte {} with w {}", at - WAITING.start, s.w),
        3 => format!("reply byte {} of a last reply of {}", at - REPLY.start, s.reply_len),
        _ => "past its end".to_string(),
    })
}

/// The state that the bytes say; none if they are too few, or address kind or running byte is above 1 (number 4).
pub fn state_of(b: &[u8]) -> Option<State> {
    if b.len() < STATE_BYTES || b[0] > 1 || b[2] > 1 {
        return None;
    }
    let mut s = State::fresh();
    if b[0] == 1 {
        s.own = Own::Address(b[1]);
    }
    s.running = b[2] == 1;
    s.next = number(b, 4);
    s.w = number(b, 8);
    s.count = number(b, 12);
    s.reply_len = number(b, 16);
    s.waiting.copy_from_slice(&b[WAITING]);
    s.reply.copy_from_slice(&b[REPLY]);
    Some(s)
}

/// States that differ only in bytes without meaning are the same.
pub fn same_state(a: &State, b: &State) -> bool {
    let numbers = |s: &State| (s.own, s.running, s.next, s.w, s.count, s.reply_len);
    numbers(a) == numbers(b) && a.waiting_bytes() == b.waiting_bytes() && a.last_reply() == b.last_reply()
}

/// The tally in bytes. Up to three past the end hold anything.
pub fn tally_bytes(tally: &Counters) -> Vec<u8> {
    let [short, long, crc, foreign, answered] = tally.counters();
    let mut rng = Rng::new(u64::from(short) ^ u64::from(long) << 16 ^ u64::from(answered) << 32);
    let mut b = anything(&mut rng, TALLY_BYTES);
    for (at, counter) in [(0, short), (2, long), (4, crc), (6, foreign), (8, answered)] {
        b[at] = (counter % 256) as u8;
        b[at + 1] = (counter / 256) as u8;
    }
    b
}

/// The tally that the bytes say; none if they are too few.
pub fn tally_of(b: &[u8]) -> Option<Counters> {
    if b.len() < TALLY_BYTES {
        return None;
    }
    let counter = |at: usize| u16::from(b[at]) + 256 * u16::from(b[at + 1]);
    Some(Counters::of([counter(0), counter(2), counter(4), counter(6), counter(8)]))
}

fn anything(rng: &mut Rng, least: usize) -> Vec<u8> {
    let more = rng.below(4) as usize;
    rng.bytes(least + more)
}

pub fn put(b: &mut [u8], at: usize, number: u32) {
    b[at..at + 4].copy_from_slice(&number.to_le_bytes());
}

fn number(b: &[u8], at: usize) -> u32 {
    u32::from_le_bytes([b[at], b[at + 1], b[at + 2], b[at + 3]])
}
