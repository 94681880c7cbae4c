//! The master: request encoder, reply decoder, two reads, version rule, reset of a running application.

use crate::model::*;
use crate::sums::*;

/// Codes of the two general calls in a request.
pub const RESET_ADDRESS_CALL: u32 = 260;
pub const RESET_CALL: u32 = 262;

/// A request. For set address `a` is the new address and `b` the hardware
/// type; for write `a` is the flash address; for read `a` is the flash address
/// and `b` the length. What a command hasn't got is ignored.
#[derive(Clone, Copy, Debug)]
pub struct Request<'a> {
    pub code: u32,
    pub destination: u32,
    pub a: u32,
    pub b: u32,
    pub data: &'a [u8],
}

/// The request encoder: numbers 2 (M only), 7, 6 in this order.
pub fn encode(bus: Bus, m: u32, request: &Request, out: &mut [u8]) -> Answer {
    if m_out_of_range(m) {
        return Answer::only(2);
    }
    let bytes = match request.code {
        RESET_ADDRESS_CALL => general_bytes(bus, 0x04),
        RESET_CALL => general_bytes(bus, 0x06),
        _ => match command_bytes(bus, m, request) {
            Some(bytes) => bytes,
            None => return Answer::only(7),
        },
    };
    lay(&bytes, out)
}

/// The request in the lent output's first places, or number 6 if it doesn't fit.
fn lay(bytes: &[u8], out: &mut [u8]) -> Answer {
    if bytes.len() > out.len() {
        return Answer::only(6);
    }
    out[..bytes.len()].copy_from_slice(bytes);
    Answer { number: 0, len: bytes.len() }
}

/// On I2C one byte without CRC; on RS485 a whole frame to address 0.
fn general_bytes(bus: Bus, code: u8) -> Vec<u8> {
    match bus {
        Bus::I2c => vec![code],
        Bus::Rs485 => {
            let mut frame = vec![0, code + 0x40];
            push_crc16(&mut frame);
            frame
        }
    }
}

fn most_address(bus: Bus) -> u32 {
    match bus {
        Bus::I2c => 127,
        Bus::Rs485 => 255,
    }
}

/// The request, or none if an argument is out of range.
fn command_bytes(bus: Bus, m: u32, request: &Request) -> Option<Vec<u8>> {
    served(request.code)?;
    if request.destination == 0 || request.destination > most_address(bus) {
        return None;
    }
    let args = arguments(bus, m, request)?;
    let mut frame = Vec::new();
    if bus == Bus::Rs485 {
        frame.push(request.destination as u8);
    }
    frame.push(request.code as u8);
    frame.extend(args);
    match bus {
        Bus::I2c => push_crc8(&mut frame),
        Bus::Rs485 => push_crc16(&mut frame),
    }
    if frame.len() > m as usize {
        return None;
    }
    Some(frame)
}

fn arguments(bus: Bus, m: u32, request: &Request) -> Option<Vec<u8>> {
    match request.code as u8 {
        SET_ADDRESS => set_address_arguments(bus, request.a, request.b),
        WRITE => {
            let mut args = flash_address(request.a)?;
            args.extend_from_slice(request.data);
            Some(args)
        }
        READ => read_arguments(bus, m, request.a, request.b),
        _ => Some(Vec::new()),
    }
}

fn set_address_arguments(bus: Bus, address: u32, hardware: u32) -> Option<Vec<u8>> {
    if address > most_address(bus) || reserved(bus, address) || hardware > 255 {
        return None;
    }
    Some(vec![address as u8, hardware as u8])
}

fn read_arguments(bus: Bus, m: u32, address: u32, length: u32) -> Option<Vec<u8>> {
    let mut args = flash_address(address)?;
    if u64::from(length) + reply_frame_bytes(bus) > u64::from(m) {
        return None;
    }
    args.push(length as u8);
    Some(args)
}

fn flash_address(address: u32) -> Option<Vec<u8>> {
    if address > 65_535 {
        return None;
    }
    Some(vec![(address >> 8) as u8, address as u8])
}

/// A decoded reply: status, and place and number of its results.
#[derive(Clone, Copy, Debug, PartialEq, Eq)]
pub struct Decoded {
    pub status: u8,
    pub start: usize,
    pub length: usize,
}

/// The reply decoder: numbers 7, 8, 11, 9, 10, 12, 13 in this order.
pub fn decode(bus: Bus, code: u32, address: u32, asked: u32, reply: &[u8]) -> Result<Decoded, u8> {
    served(code).ok_or(7u8)?;
    let frame_bytes = reply_frame_bytes(bus) as usize;
    if reply.len() < frame_bytes {
        return Err(8);
    }
    let start = match bus {
        Bus::I2c => 2,
        Bus::Rs485 => 3,
    };
    let length = usize::from(reply[start - 1]);
    let whole = length + frame_bytes;
    let fits = match bus {
        Bus::I2c => reply.len() >= whole,
        Bus::Rs485 => reply.len() == whole,
    };
    if !fits {
        return Err(11);
    }
    if !reply_sum_right(bus, &reply[..whole]) {
        return Err(9);
    }
    if bus == Bus::Rs485 && u32::from(reply[0]) != address {
        return Err(10);
    }
    let status = reply[start - 2];
    if status > 5 {
        return Err(12);
    }
    if status == OK && (length as u64) < fixed_part(code, asked) {
        return Err(13);
    }
    Ok(Decoded { status, start, length })
}

fn reply_sum_right(bus: Bus, reply: &[u8]) -> bool {
    match bus {
        Bus::I2c => crc8_right(reply),
        Bus::Rs485 => crc16_right(reply),
    }
}

/// How many results an OK must have.
fn fixed_part(code: u32, asked: u32) -> u64 {
    match code as u8 {
        VERSION => 2,
        HARDWARE_INFO => 5,
        REVISION => 1,
        FINALIZE => 2,
        MAX_PACKET => 2,
        READ => u64::from(asked),
        _ => 0,
    }
}

/// Which of two I2C reads decodes first (1, 2, or 0 for neither), and its results.
pub fn two_reads<'a>(code: u32, asked: u32, first: &'a [u8], second: &'a [u8]) -> (u8, &'a [u8]) {
    if let Ok(d) = decode(Bus::I2c, code, 0, asked, first) {
        return (1, &first[d.start..d.start + d.length]);
    }
    if let Ok(d) = decode(Bus::I2c, code, 0, asked, second) {
        return (2, &second[d.start..d.start + d.length]);
    }
    (0, &[])
}

/// The version rule's number for "application running", the version 0.0. Document 02 gives none: this one is neither 0 nor
/// 14, and no other call answers it.
pub const APPLICATION_RUNNING: u8 = 40;

/// The version that a board's version counts as; else number 40 (application running) or 14 (not known).
pub fn version(major: u8, minor: u8) -> Result<(u8, u8), u8> {
    match major {
        0 if minor == 0 => Err(APPLICATION_RUNNING),
        1 => Ok((1, minor.min(1))),
        2 => Ok((2, minor.min(2))),
        _ => Err(14),
    }
}

/// The reset for the boards of a bus on which this version was answered: the general call that ends a running application.
/// Numbers 2 (M only), 14, 6 in this order. A known version is 1, whatever the room: there is nothing to send.
pub fn reset_running(bus: Bus, m: u32, major: u8, minor: u8, out: &mut [u8]) -> Answer {
    if m_out_of_range(m) {
        return Answer::only(2);
    }
    match version(major, minor) {
        Ok(_) => Answer::only(1),
        Err(APPLICATION_RUNNING) => lay(&general_bytes(bus, 0x06), out),
        Err(number) => Answer::only(number),
    }
}
