//! Both check sums bit by bit, as document 01 defines them. `half_bytes` compares `sums` with them.

/// One bit step of CRC-8: polynomial x^8+x^2+x+1, most significant bit first.
pub fn step8(sum: u8) -> u8 {
    if sum & 0x80 != 0 {
        return (sum << 1) ^ 0x07;
    }
    sum << 1
}

/// One bit step of CRC-16: reflected polynomial 0xA001.
pub fn step16(sum: u16) -> u16 {
    if sum & 1 != 0 {
        return (sum >> 1) ^ 0xa001;
    }
    sum >> 1
}

/// Four bit steps of CRC-8.
pub fn four8(sum: u8) -> u8 {
    (0..4).fold(sum, |sum, _| step8(sum))
}

/// Four bit steps of CRC-16.
pub fn four16(sum: u16) -> u16 {
    (0..4).fold(sum, |sum, _| step16(sum))
}

/// The CRC-8 register after one more byte.
pub fn byte8(sum: u8, byte: u8) -> u8 {
    (0..8).fold(sum ^ byte, |sum, _| step8(sum))
}

/// The CRC-16 register after one more byte.
pub fn byte16(sum: u16, byte: u8) -> u16 {
    (0..8).fold(sum ^ u16::from(byte), |sum, _| step16(sum))
}

/// CRC-8: start 0xFF.
pub fn crc8(bytes: &[u8]) -> u8 {
    bytes.iter().fold(0xff, |sum, &byte| byte8(sum, byte))
}

/// CRC-16 of Modbus: start 0xFFFF.
pub fn crc16(bytes: &[u8]) -> u16 {
    bytes.iter().fold(0xffff, |sum, &byte| byte16(sum, byte))
}

#[cfg(test)]
mod tests {
    use super::*;

    #[test]
    fn published_check_values() {
        assert_eq!(crc8(b"123456789"), 0xfb);
        assert_eq!(crc16(b"123456789"), 0x4b37);
    }
}
