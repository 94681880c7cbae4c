//! What must not be missed (the last part of childbus.h): five calls on bytes as a C caller lends them. They read profile and state
//! anew, by the layouts of the header, and share with the board only the check sums.

use crate::layout::{PROFILE_BYTES, STATE_BYTES};
use crate::sums::{crc16_right, crc8_right};

/// Waiting bytes that a state has room for.
const MOST_WAITING: u64 = 128;

/// Answers of `silence`.
pub const NONE: u32 = 0;
pub const RUNNING: u32 = 1;
pub const SHORT: u32 = 2;
pub const LONG: u32 = 3;
pub const CRC: u32 = 4;
pub const FOREIGN: u32 = 5;
pub const GENERAL: u32 = 6;
pub const TYPE: u32 = 7;
pub const RESET: u32 = 8;
pub const START: u32 = 9;

/// Answers of `upload_end`.
pub const WHOLE: u32 = 0;
pub const PARTLY: u32 = 1;
pub const UNCHANGED: u32 = 2;

/// What the five calls read of a profile.
#[derive(Default)]
struct Board {
    rs485: bool,
    m: u64,
    page: u64,
    s: u64,
    o: u64,
}

/// Bytes that hold no profile read as one on I2C with M, page, S and O 0: too few bytes, no bus or no page. Other fields that are out of
/// range read as they are.
fn board(profile: &[u8]) -> Board {
    if profile.len() < PROFILE_BYTES || profile[0] > 1 || profile[6] > 1 {
        return Board::default();
    }
    let (m, s, o) = (number_at(profile, 8), number_at(profile, 12), number_at(profile, 16));
    let page = if profile[6] == 0 { 64 } else { 128 };
    Board { rs485: profile[0] == 1, m, page, s, o }
}

/// A number of four bytes, the low one first.
fn number_at(bytes: &[u8], at: usize) -> u64 {
    (0..4).map(|k| u64::from(bytes[at + k]) << (8 * k)).sum()
}

/// Where a board listens, and whether its application runs.
struct Listener {
    own: Option<u8>,
    running: bool,
}

/// Bytes that hold no state read as a fresh board's.
fn listener(state: &[u8]) -> Listener {
    if state.len() < STATE_BYTES || state[0] > 1 || state[2] > 1 {
        return Listener { own: None, running: false };
    }
    Listener { own: if state[0] == 1 { Some(state[1]) } else { None }, running: state[2] == 1 }
}

impl Listener {
    /// Whether this board is meant; the general call is not.
    fn hears(&self, address: u32) -> bool {
        match self.own {
            Some(own) => address == u32::from(own),
            None => (8..16).contains(&address),
        }
    }
}

/// Why a received frame got no reply. The number only says whether it did.
pub fn silence(profile: &[u8], state: &[u8], address: u32, frame: &[u8], number: u32) -> u32 {
    if !matches!(number, 1 | 15 | 16 | 17 | 18) {
        return NONE;
    }
    let (board, listener) = (board(profile), listener(state));
    if board.rs485 {
        silence_rs485(&board, &listener, frame)
    } else {
        silence_i2c(&board, &listener, address, frame)
    }
}

fn silence_rs485(board: &Board, listener: &Listener, frame: &[u8]) -> u32 {
    if frame == [0x00, 0x46, 0x80, 0x42] {
        return RESET;
    }
    if listener.running {
        return RUNNING;
    }
    if frame == [0x00, 0x44, 0x01, 0x83] {
        return RESET;
    }
    if frame.len() < 4 {
        return SHORT;
    }
    if frame.len() as u64 > board.m {
        return LONG;
    }
    if !crc16_right(frame) {
        return CRC;
    }
    if frame[0] == 0 {
        return GENERAL;
    }
    if !listener.hears(u32::from(frame[0])) {
        return FOREIGN;
    }
    silent_command(frame[1])
}

fn silence_i2c(board: &Board, listener: &Listener, address: u32, frame: &[u8]) -> u32 {
    if address == 0 && frame == [0x06] {
        return RESET;
    }
    if listener.running {
        return RUNNING;
    }
    if address == 0 {
        return if frame == [0x04] { RESET } else { GENERAL };
    }
    if address > 127 || !listener.hears(address) {
        return FOREIGN;
    }
    // these get a status
    if frame.len() < 2 || frame.len() as u64 > board.m || !crc8_right(frame) {
        return NONE;
    }
    silent_command(frame[0])
}

/// A command that this board was sent. The number says that it got no reply: of set address only one for another type gets none.
fn silent_command(command: u8) -> u32 {
    match command {
        0x05 => START,
        0x01 => TYPE,
        _ => NONE,
    }
}

/// Each waiting byte with its flash address. More than 128 count as 128, and more than were accepted begin at 0.
fn waiting(state: &[u8]) -> Vec<(u64, u8)> {
    if state.len() < STATE_BYTES {
        return Vec::new();
    }
    let w = number_at(state, 8).min(MOST_WAITING);
    let first = number_at(state, 4).saturating_sub(w);
    (0..w).map(|k| (first + k, state[20 + k as usize])).collect()
}

/// How many bytes are lost: they waited before, and neither wait nor stand in flash afterwards.
pub fn lost(profile: &[u8], before: &[u8], after: &[u8], flash: &[u8]) -> u32 {
    let o = board(profile).o;
    let now = waiting(after);
    let stands = |place: u64, byte: u8| flash.get((o + place) as usize) == Some(&byte);
    waiting(before).iter().filter(|&&(place, byte)| !now.contains(&(place, byte)) && !stands(place, byte)).count() as u32
}

/// 1 for a finalize that was answered OK and whose erase count is 0.
pub fn erased_nothing(profile: &[u8], frame: &[u8], number: u32, reply: &[u8], after: &[u8]) -> u32 {
    let front = usize::from(board(profile).rs485);
    let count = if after.len() < STATE_BYTES { 0 } else { number_at(after, 12) };
    let finalized = frame.get(front) == Some(&0x07) && number == 0 && reply.get(front) == Some(&0);
    u32::from(finalized && count == 0)
}

/// The bytes from a place on, as far as there are any.
fn part(bytes: &[u8], at: u64, len: u64) -> &[u8] {
    let end = bytes.len() as u64;
    &bytes[at.min(end) as usize..(at + len).min(end) as usize]
}

/// What the flash holds at the end of an upload.
pub fn upload_end(profile: &[u8], image: &[u8], earlier: &[u8], flash: &[u8]) -> u32 {
    let board = board(profile);
    let now = part(flash, board.o, board.s);
    if now.starts_with(image) {
        return WHOLE;
    }
    if now == part(earlier, board.o, board.s) {
        return UNCHANGED;
    }
    PARTLY
}

/// 1 if a page is another one in two copies of the flash. A page that neither has is the same.
pub fn page_changed(profile: &[u8], page: u32, earlier: &[u8], flash: &[u8]) -> u32 {
    let board = board(profile);
    let at = board.o + u64::from(page) * board.page;
    u32::from(part(earlier, at, board.page) != part(flash, at, board.page))
}
