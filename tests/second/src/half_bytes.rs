//! Request W2: the check sums by half bytes (`sums`) against those bit by bit (`bits`), and which entries a check sum uses.

use crate::bits::{self, four16, four8};
use crate::check::demand;
use crate::model::Bus;
use crate::rng::Rng;
use crate::sums::{self, TABLE16, TABLE8};

/// The byte string of the published check values.
const CHECKED: &[u8] = b"123456789";

/// Longest random byte string that is compared.
const LONGEST: usize = 300;

/// Every entry, every register with every byte, byte strings; a report line, or the first difference.
pub fn compare() -> Result<String, String> {
    every_entry()?;
    every_byte8()?;
    every_byte16()?;
    check_values()?;
    for length in 0..=LONGEST {
        byte_string(&Rng::new(length as u64).bytes(length))?;
    }
    let every = "every entry, every register with every byte";
    Ok(format!("check sums by half bytes and bit by bit: {every}, byte strings of up to {LONGEST} bytes"))
}

fn same(what: &str, half_bytes: u16, bits: u16) -> Result<(), String> {
    demand(half_bytes == bits, &format!("{what}: {half_bytes:#x}, bit by bit {bits:#x}"))
}

/// The rule of both tables: four bit steps from i in the half byte that leaves first.
fn every_entry() -> Result<(), String> {
    for i in 0..16u8 {
        let k = usize::from(i);
        same(&format!("CRC-8, entry {i}"), u16::from(TABLE8[k]), u16::from(four8(i << 4)))?;
        same(&format!("CRC-16, entry {i}"), TABLE16[k], four16(u16::from(i)))?;
    }
    Ok(())
}

fn every_byte8() -> Result<(), String> {
    for sum in 0..=255 {
        let wrong = (0..=255).find(|&byte| sums::byte8(sum, byte) != bits::byte8(sum, byte));
        if let Some(byte) = wrong {
            let what = format!("CRC-8, register {sum:#04x}, byte {byte:#04x}");
            return same(&what, u16::from(sums::byte8(sum, byte)), u16::from(bits::byte8(sum, byte)));
        }
    }
    Ok(())
}

fn every_byte16() -> Result<(), String> {
    for sum in 0..=65_535 {
        let wrong = (0..=255).find(|&byte| sums::byte16(sum, byte) != bits::byte16(sum, byte));
        if let Some(byte) = wrong {
            let what = format!("CRC-16, register {sum:#06x}, byte {byte:#04x}");
            return same(&what, sums::byte16(sum, byte), bits::byte16(sum, byte));
        }
    }
    Ok(())
}

/// The published check values, by half bytes and bit by bit.
fn check_values() -> Result<(), String> {
    let (sum8, sum16) = (sums::crc8(CHECKED), sums::crc16(CHECKED));
    demand(sum8 == 0xfb, &format!("check value of CRC-8: {sum8:#x}, published 0xfb"))?;
    demand(sum16 == 0x4b37, &format!("check value of CRC-16: {sum16:#x}, published 0x4b37"))?;
    byte_string(CHECKED)
}

fn byte_string(bytes: &[u8]) -> Result<(), String> {
    let what = |sum: &str| format!("{sum} of {bytes:02x?}");
    same(&what("CRC-8"), u16::from(sums::crc8(bytes)), u16::from(bits::crc8(bytes)))?;
    same(&what("CRC-16"), sums::crc16(bytes), bits::crc16(bytes))
}

/// For each byte the entries that its first and its second half step use.
pub fn entries(bus: Bus, bytes: &[u8]) -> Vec<[usize; 2]> {
    match bus {
        Bus::I2c => entries8(bytes),
        Bus::Rs485 => entries16(bytes),
    }
}

/// With the whole byte in the register, the half that leaves first is the entry's number; four bit steps on, the second's.
fn entries8(bytes: &[u8]) -> Vec<[usize; 2]> {
    let mut used = Vec::new();
    let mut sum = 0xff;
    for &byte in bytes {
        let first = sum ^ byte;
        let second = four8(first);
        used.push([usize::from(first >> 4), usize::from(second >> 4)]);
        sum = four8(second);
    }
    used
}

fn entries16(bytes: &[u8]) -> Vec<[usize; 2]> {
    let mut used = Vec::new();
    let mut sum = 0xffff;
    for &byte in bytes {
        let first = sum ^ u16::from(byte);
        let second = four16(first);
        used.push([usize::from(first & 0x0f), usize::from(second & 0x0f)]);
        sum = four16(second);
    }
    used
}

#[cfg(test)]
mod tests {
    use super::*;

    #[test]
    fn half_bytes_and_bits_agree() {
        compare().unwrap();
    }

    /// E1 and E7: 0xff, 0xdd, 0xf3; 0xffff, 0xebfe, 0x86be, 0x806a, 0x7006.
    #[test]
    fn entries_by_hand() {
        assert_eq!(entries(Bus::I2c, &[0x00]), [[15, 13]]);
        assert_eq!(entries(Bus::Rs485, &[0x08, 0x00]), [[7, 14], [14, 10]]);
    }
}
