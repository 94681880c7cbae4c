//! Both check sums by half bytes (request W2). Document 01 defines them bit by bit: see `bits`.
//!
//! Entry i of a table is the register after four bit steps from i in the half byte that leaves first: the high one of
//! CRC-8, the lowest one of CRC-16. The byte's halves enter in the same order.

pub const TABLE8: [u8; 16] =
    [0x00, 0x07, 0x0e, 0x09, 0x1c, 0x1b, 0x12, 0x15, 0x38, 0x3f, 0x36, 0x31, 0x24, 0x23, 0x2a, 0x2d];

pub const TABLE16: [u16; 16] = [
    0x0000, 0xcc01, 0xd801, 0x1400, 0xf001, 0x3c00, 0x2800, 0xe401, 0xa001, 0x6c00, 0x7800, 0xb401, 0x5000, 0x9c01,
    0x8801, 0x4400,
];

/// The CRC-8 register after one more half byte.
fn half8(sum: u8, half: u8) -> u8 {
    let entry = (sum >> 4) ^ half;
    (sum << 4) ^ TABLE8[usize::from(entry)]
}

/// The CRC-16 register after one more half byte.
fn half16(sum: u16, half: u8) -> u16 {
    let entry = (sum & 0x0f) ^ u16::from(half);
    (sum >> 4) ^ TABLE16[usize::from(entry)]
}

/// The CRC-8 register after one more byte, its high half first.
pub fn byte8(sum: u8, byte: u8) -> u8 {
    let sum = half8(sum, byte >> 4);
    half8(sum, byte & 0x0f)
}

/// The CRC-16 register after one more byte, its low half first.
pub fn byte16(sum: u16, byte: u8) -> u16 {
    let sum = half16(sum, byte & 0x0f);
    half16(sum, byte >> 4)
}

/// CRC-8: start 0xFF.
pub fn crc8(bytes: &[u8]) -> u8 {
    let mut sum: u8 = 0xff;
    for &byte in bytes {
        sum = byte8(sum, byte);
    }
    sum
}

/// CRC-16 of Modbus: start 0xFFFF.
pub fn crc16(bytes: &[u8]) -> u16 {
    let mut sum: u16 = 0xffff;
    for &byte in bytes {
        sum = byte16(sum, byte);
    }
    sum
}

/// Does the frame end with the CRC-8 of the bytes before it?
pub fn crc8_right(frame: &[u8]) -> bool {
    match frame.split_last() {
        Some((last, body)) => *last == crc8(body),
        None => false,
    }
}

/// Does the frame end with the CRC-16 of the bytes before it, low byte first?
pub fn crc16_right(frame: &[u8]) -> bool {
    if frame.len() < 2 {
        return false;
    }
    let (body, tail) = frame.split_at(frame.len() - 2);
    let sum = crc16(body);
    tail[0] == (sum & 0xff) as u8 && tail[1] == (sum >> 8) as u8
}

/// Add the CRC-8.
pub fn push_crc8(frame: &mut Vec<u8>) {
    let sum = crc8(frame);
    frame.push(sum);
}

/// Add the CRC-16, low byte first.
pub fn push_crc16(frame: &mut Vec<u8>) {
    let sum = crc16(frame);
    frame.push((sum & 0xff) as u8);
    frame.push((sum >> 8) as u8);
}

#[cfg(test)]
mod tests {
    use super::*;

    #[test]
    fn published_check_values() {
        assert_eq!(crc8(b"123456789"), 0xfb);
        assert_eq!(crc16(b"123456789"), 0x4b37);
    }

    #[test]
    fn examples() {
        assert_eq!(crc8(&[0x00]), 0xf3);
        assert_eq!(crc8(&[0x07]), 0xe6);
        assert!(crc16_right(&[0x08, 0x00, 0x06, 0x70]));
        assert!(crc16_right(&[0x00, 0x46, 0x80, 0x42]));
        assert!(!crc16_right(&[0x80]));
    }
}
