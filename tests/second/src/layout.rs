//! Profile and state as bytes, by the layouts of childbus.h. Bytes that mean nothing are 0 in a profile; in a state the whole buffers
//! are laid.

use crate::model::*;

pub const PROFILE_BYTES: usize = 36;
pub const STATE_BYTES: usize = 404;

/// A page other than 64 and 128 is byte 2: it says no page.
pub fn profile_bytes(p: &Profile) -> Vec<u8> {
    let mut bytes = vec![0; PROFILE_BYTES];
    let page = PAGES.iter().position(|&page| page == p.page).unwrap_or(PAGES.len());
    bytes[..7].copy_from_slice(&[
        p.bus as u8,
        p.hardware,
        p.compatible,
        p.actual,
        p.version,
        p.serial.len() as u8,
        page as u8,
    ]);
    put_numbers(&mut bytes[8..], &[p.m, p.s, p.o]);
    for (place, byte) in bytes[20..].iter_mut().zip(&p.serial) {
        *place = *byte;
    }
    bytes
}

pub fn state_bytes(s: &State) -> Vec<u8> {
    let mut bytes = vec![0; STATE_BYTES];
    if let Own::Address(own) = s.own {
        bytes[0] = 1;
        bytes[1] = own;
    }
    bytes[2] = u8::from(s.running);
    put_numbers(&mut bytes[4..], &[s.next, s.w, s.count, s.reply_len]);
    bytes[20..20 + MOST_PAGE].copy_from_slice(&s.waiting);
    bytes[20 + MOST_PAGE..].copy_from_slice(&s.reply);
    bytes
}

/// Four bytes each, the low one first.
pub fn put_numbers(bytes: &mut [u8], numbers: &[u32]) {
    for (place, number) in bytes.chunks_mut(4).zip(numbers) {
        place.copy_from_slice(&number.to_le_bytes());
    }
}
