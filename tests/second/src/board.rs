//! The board: a received frame and an I2C read.

use crate::model::*;
use crate::sums::*;
use crate::tally::*;

/// What a received frame is to this board.
enum Verdict {
    Reset,
    ResetAddress,
    Ignored,
    /// RS485: silence, and why.
    Dropped(u8),
    BadTransfer,
    BadCrc,
    Command,
}

/// What a command comes to.
enum Outcome {
    Reply(u8, Vec<u8>),
    Nothing,
}

fn ok(results: Vec<u8>) -> Outcome {
    Outcome::Reply(OK, results)
}

fn status(code: u8) -> Outcome {
    Outcome::Reply(code, Vec::new())
}

/// A received frame. `address` is the I2C address; RS485 doesn't look at it.
/// With number 0 the reply is the first `len` bytes of `out`.
pub fn receive(
    p: &Profile,
    s: &mut State,
    flash: &mut [u8],
    out: &mut [u8],
    address: u8,
    frame: &[u8],
) -> Answer {
    if let Some(number) = refusal(p, s, flash.len(), out.len()) {
        return Answer::only(number);
    }
    match verdict(p, s, address, frame) {
        Verdict::Reset => {
            *s = State::fresh();
            Answer::only(1)
        }
        Verdict::ResetAddress => {
            s.own = Own::DefaultRange;
            s.reply_len = 0;
            Answer::only(1)
        }
        Verdict::Ignored => Answer::only(1),
        Verdict::Dropped(number) => Answer::only(number),
        Verdict::BadTransfer => deliver(p, s, out, frame, status(INVALID_TRANSFER)),
        Verdict::BadCrc => deliver(p, s, out, frame, status(INVALID_CRC)),
        Verdict::Command => {
            let outcome = command(p, s, flash, frame);
            deliver(p, s, out, frame, outcome)
        }
    }
}

/// A received frame, counted in the tally by its number.
pub fn receive_tally(
    p: &Profile,
    s: &mut State,
    flash: &mut [u8],
    out: &mut [u8],
    address: u8,
    frame: &[u8],
    tally: &mut Tally,
) -> Answer {
    let answer = receive(p, s, flash, out, address, frame);
    tally.count(answer.number);
    answer
}

/// An I2C read at an address.
pub fn read(p: &Profile, s: &State, flash: &[u8], out: &mut [u8], address: u8) -> Answer {
    if let Some(number) = refusal(p, s, flash.len(), out.len()) {
        return Answer::only(number);
    }
    if p.bus == Bus::Rs485 || s.running || !hears_i2c(s, address) {
        return Answer::only(1);
    }
    let last = s.last_reply();
    if last.is_empty() {
        return Answer::only(1);
    }
    put(out, last)
}

/// Copy the bytes into the output's first places.
fn put(out: &mut [u8], bytes: &[u8]) -> Answer {
    for (place, byte) in out.iter_mut().zip(bytes) {
        *place = *byte;
    }
    Answer { number: 0, len: bytes.len().min(out.len()) }
}

fn verdict(p: &Profile, s: &State, address: u8, frame: &[u8]) -> Verdict {
    let general = general_call(p.bus, address, frame);
    if general == Some(6) {
        return Verdict::Reset;
    }
    if s.running {
        return Verdict::Ignored;
    }
    if general == Some(4) {
        return Verdict::ResetAddress;
    }
    match p.bus {
        Bus::I2c => verdict_i2c(p, s, address, frame),
        Bus::Rs485 => verdict_rs485(p, s, frame),
    }
}

/// A general call in its exact form: 4 reset address, 6 reset.
fn general_call(bus: Bus, address: u8, frame: &[u8]) -> Option<u8> {
    match (bus, frame) {
        (Bus::I2c, [0x04]) if address == 0 => Some(4),
        (Bus::I2c, [0x06]) if address == 0 => Some(6),
        (Bus::Rs485, [0, 0x44, _, _]) if crc16_right(frame) => Some(4),
        (Bus::Rs485, [0, 0x46, _, _]) if crc16_right(frame) => Some(6),
        _ => None,
    }
}

/// Whether the address is one of this board's; on I2C see `hears_i2c`.
pub fn hears(s: &State, address: u8) -> bool {
    match s.own {
        Own::DefaultRange => (8..=15).contains(&address),
        Own::Address(own) => address == own && address != 0,
    }
}

pub fn hears_i2c(s: &State, address: u8) -> bool {
    address < 128 && hears(s, address)
}

fn verdict_i2c(p: &Profile, s: &State, address: u8, frame: &[u8]) -> Verdict {
    if !hears_i2c(s, address) {
        return Verdict::Ignored;
    }
    if frame.len() < 2 || frame.len() > p.m as usize {
        return Verdict::BadTransfer;
    }
    if !crc8_right(frame) {
        return Verdict::BadCrc;
    }
    Verdict::Command
}

/// Short, long, CRC, foreign, in this order. Another general call is none of them: 0 is never a foreign address.
fn verdict_rs485(p: &Profile, s: &State, frame: &[u8]) -> Verdict {
    if frame.len() < 4 {
        return Verdict::Dropped(FRAME_SHORT);
    }
    if frame.len() > p.m as usize {
        return Verdict::Dropped(FRAME_LONG);
    }
    if !crc16_right(frame) {
        return Verdict::Dropped(FRAME_CRC);
    }
    if frame[0] == 0 {
        return Verdict::Ignored;
    }
    if !hears(s, frame[0]) {
        return Verdict::Dropped(FRAME_FOREIGN);
    }
    Verdict::Command
}

/// Command code and arguments of a frame whose length is in range.
fn parts(bus: Bus, frame: &[u8]) -> (u8, &[u8]) {
    let (front, back) = match bus {
        Bus::I2c => (0, 1),
        Bus::Rs485 => (1, 2),
    };
    let code = frame.get(front).copied().unwrap_or(0xff);
    let end = frame.len().saturating_sub(back);
    (code, frame.get(front + 1..end).unwrap_or(&[]))
}

fn command(p: &Profile, s: &mut State, flash: &mut [u8], frame: &[u8]) -> Outcome {
    let (code, args) = parts(p.bus, frame);
    let Some((fewest, most)) = served(u32::from(code)) else {
        return status(NOT_SUPPORTED);
    };
    if args.len() < fewest || args.len() > most {
        return status(INVALID_ARGUMENTS);
    }
    match code {
        VERSION => ok(vec![2, 2]),
        SET_ADDRESS => set_address(p, s, args[0], args[1]),
        HARDWARE_INFO => hardware_info(p),
        SERIAL => serial(p),
        START => start(s),
        WRITE => write(p, s, flash, be16(args[0], args[1]), &args[2..]),
        FINALIZE => finalize(p, s, flash),
        READ => read_flash(p, flash, be16(args[0], args[1]), u64::from(args[2])),
        REVISION => ok(vec![p.actual]),
        MAX_PACKET => ok(two_bytes(p.m)),
        _ => status(NOT_SUPPORTED),
    }
}

fn be16(high: u8, low: u8) -> u64 {
    u64::from(high) * 256 + u64::from(low)
}

fn two_bytes(number: u32) -> Vec<u8> {
    vec![(number >> 8) as u8, number as u8]
}

fn set_address(p: &Profile, s: &mut State, address: u8, hardware: u8) -> Outcome {
    if hardware != p.hardware && hardware != 0 {
        return Outcome::Nothing;
    }
    let taken = match p.bus {
        Bus::I2c => address & 0x7f,
        Bus::Rs485 => address,
    };
    if reserved(p.bus, u32::from(taken)) {
        return status(INVALID_ARGUMENTS);
    }
    s.own = Own::Address(taken);
    ok(Vec::new())
}

fn hardware_info(p: &Profile) -> Outcome {
    let mut results = vec![p.hardware, p.compatible, p.version];
    results.extend(two_bytes(p.s));
    ok(results)
}

fn serial(p: &Profile) -> Outcome {
    if p.serial.is_empty() {
        return status(NOT_SUPPORTED);
    }
    ok(p.serial.clone())
}

fn start(s: &mut State) -> Outcome {
    s.running = true;
    s.w = 0;
    Outcome::Nothing
}

fn write(p: &Profile, s: &mut State, flash: &mut [u8], address: u64, data: &[u8]) -> Outcome {
    let in_order = address == 0 || address == u64::from(s.next);
    let end = address + data.len() as u64;
    if !in_order || end > u64::from(p.s) {
        return status(INVALID_ARGUMENTS);
    }
    if address == 0 {
        s.next = 0;
        s.w = 0;
        s.count = 0;
    }
    for &byte in data {
        accept(p, s, flash, byte);
    }
    ok(Vec::new())
}

/// Take one byte; commit its page if it ends one.
fn accept(p: &Profile, s: &mut State, flash: &mut [u8], byte: u8) {
    s.waiting[s.w as usize] = byte;
    s.w += 1;
    s.next += 1;
    if s.next % p.page == 0 {
        commit(p, s, flash);
    }
}

/// Lay the waiting bytes over their page; write it only if that changes it.
fn commit(p: &Profile, s: &mut State, flash: &mut [u8]) {
    let first = (s.next - s.w) as usize;
    let page_size = p.page as usize;
    let within = first % page_size;
    let base = p.o as usize + first - within;
    let old = &mut flash[base..base + page_size];
    let mut page = old.to_vec();
    page[within..within + s.w as usize].copy_from_slice(s.waiting_bytes());
    if page != old {
        old.copy_from_slice(&page);
        s.count += 1;
    }
    s.w = 0;
}

fn finalize(p: &Profile, s: &mut State, flash: &mut [u8]) -> Outcome {
    if s.w > 0 {
        commit(p, s, flash);
    }
    ok(two_bytes(s.count))
}

fn read_flash(p: &Profile, flash: &[u8], address: u64, length: u64) -> Outcome {
    let most = u64::from(p.m) - reply_frame_bytes(p.bus);
    if address + length > u64::from(p.s) || length > most {
        return status(INVALID_ARGUMENTS);
    }
    let first = (u64::from(p.o) + address) as usize;
    ok(flash[first..first + length as usize].to_vec())
}

/// Make the reply, and on I2C keep it as the last reply.
fn deliver(p: &Profile, s: &mut State, out: &mut [u8], frame: &[u8], outcome: Outcome) -> Answer {
    let reply = match outcome {
        Outcome::Reply(status, results) => reply_bytes(p.bus, frame, status, &results),
        Outcome::Nothing => Vec::new(),
    };
    if p.bus == Bus::I2c {
        keep(s, &reply);
    }
    if reply.is_empty() {
        return Answer::only(1);
    }
    put(out, &reply)
}

fn keep(s: &mut State, reply: &[u8]) {
    for (place, byte) in s.reply.iter_mut().zip(reply) {
        *place = *byte;
    }
    s.reply_len = reply.len() as u32;
}

fn reply_bytes(bus: Bus, frame: &[u8], status: u8, results: &[u8]) -> Vec<u8> {
    let mut reply = Vec::new();
    if bus == Bus::Rs485 {
        reply.push(frame.first().copied().unwrap_or(0));
    }
    reply.push(status);
    reply.push(results.len() as u8);
    reply.extend_from_slice(results);
    match bus {
        Bus::I2c => push_crc8(&mut reply),
        Bus::Rs485 => push_crc16(&mut reply),
    }
    reply
}
