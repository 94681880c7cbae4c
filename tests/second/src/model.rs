//! Profile, state, the argument table, reserved addresses and the refusals that board calls test.

/// The page sizes that a profile may have.
pub const PAGES: [u32; 2] = [64, 128];
/// Bytes of the largest page: so many the waiting buffer has.
pub const MOST_PAGE: usize = 128;
pub const LEAST_M: u64 = 32;
pub const MOST_M: u64 = 256;
pub const LEAST_S: u64 = 64;
pub const MOST_S: u64 = 65_472;
pub const MOST_O: u64 = 65_472;
pub const MOST_SERIAL: usize = 16;

pub const OK: u8 = 0;
pub const NOT_SUPPORTED: u8 = 2;
pub const INVALID_TRANSFER: u8 = 3;
pub const INVALID_CRC: u8 = 4;
pub const INVALID_ARGUMENTS: u8 = 5;

pub const VERSION: u8 = 0x00;
pub const SET_ADDRESS: u8 = 0x01;
pub const HARDWARE_INFO: u8 = 0x03;
pub const SERIAL: u8 = 0x04;
pub const START: u8 = 0x05;
pub const WRITE: u8 = 0x06;
pub const FINALIZE: u8 = 0x07;
pub const READ: u8 = 0x08;
pub const REVISION: u8 = 0x09;
pub const MAX_PACKET: u8 = 0x0c;

#[derive(Clone, Copy, Debug, PartialEq, Eq)]
pub enum Bus {
    I2c,
    Rs485,
}

#[derive(Clone, Debug, PartialEq, Eq)]
pub struct Profile {
    pub bus: Bus,
    /// M, the longest frame.
    pub m: u32,
    /// The size of a flash page.
    pub page: u32,
    /// S, the size of the working flash.
    pub s: u32,
    /// O, the working flash's offset in the lent flash.
    pub o: u32,
    pub hardware: u8,
    pub compatible: u8,
    pub actual: u8,
    pub version: u8,
    pub serial: Vec<u8>,
}

#[derive(Clone, Copy, Debug, PartialEq, Eq)]
pub enum Own {
    DefaultRange,
    Address(u8),
}

#[derive(Clone, Debug, PartialEq, Eq)]
pub struct State {
    pub own: Own,
    pub running: bool,
    pub next: u32,
    pub w: u32,
    pub count: u32,
    pub reply_len: u32,
    pub waiting: [u8; MOST_PAGE],
    pub reply: [u8; 256],
}

impl State {
    pub fn fresh() -> State {
        State {
            own: Own::DefaultRange,
            running: false,
            next: 0,
            w: 0,
            count: 0,
            reply_len: 0,
            waiting: [0; MOST_PAGE],
            reply: [0; 256],
        }
    }

    /// The waiting bytes, at most the whole buffer.
    pub fn waiting_bytes(&self) -> &[u8] {
        &self.waiting[..(self.w as usize).min(MOST_PAGE)]
    }

    /// The last reply, at most the whole buffer.
    pub fn last_reply(&self) -> &[u8] {
        &self.reply[..(self.reply_len as usize).min(256)]
    }
}

/// What a call answers: its number, and how many bytes of output it made.
#[derive(Clone, Copy, Debug, PartialEq, Eq)]
pub struct Answer {
    pub number: u8,
    pub len: usize,
}

impl Answer {
    pub fn only(number: u8) -> Answer {
        Answer { number, len: 0 }
    }
}

/// One row per command code: served, fewest and most argument bytes.
pub const ROWS: [(bool, usize, usize); 15] = [
    (true, 0, 0),   // 0x00 version
    (true, 2, 2),   // 0x01 set address
    (false, 0, 0),  // 0x02
    (true, 0, 0),   // 0x03 hardware info
    (true, 0, 0),   // 0x04 serial
    (true, 0, 0),   // 0x05 start
    (true, 2, 254), // 0x06 write
    (true, 0, 0),   // 0x07 finalize
    (true, 3, 3),   // 0x08 read
    (true, 0, 0),   // 0x09 revision
    (false, 0, 0),  // 0x0a
    (false, 0, 0),  // 0x0b
    (true, 0, 0),   // 0x0c largest frame
    (false, 0, 0),  // 0x0d
    (false, 0, 0),  // 0x0e
];

/// The row of a served command.
pub fn served(code: u32) -> Option<(usize, usize)> {
    match ROWS.get(code as usize) {
        Some(&(true, fewest, most)) => Some((fewest, most)),
        _ => None,
    }
}

/// Addresses that set address gives to no board; on I2C after the top bit is dropped.
pub fn reserved(bus: Bus, address: u32) -> bool {
    match bus {
        Bus::I2c => address <= 7 || (120..=127).contains(&address),
        Bus::Rs485 => address == 0 || (248..=255).contains(&address),
    }
}

/// Bytes of a reply or request beside its results or arguments and command.
pub fn reply_frame_bytes(bus: Bus) -> u64 {
    match bus {
        Bus::I2c => 3,
        Bus::Rs485 => 5,
    }
}

pub fn m_out_of_range(m: u32) -> bool {
    let m = u64::from(m);
    m < LEAST_M || m > MOST_M
}

fn page_out_of_range(page: u32) -> bool {
    !PAGES.contains(&page)
}

fn s_out_of_range(page: u32, s: u32) -> bool {
    let (page, s) = (u64::from(page), u64::from(s));
    s % page != 0 || s < LEAST_S || s > MOST_S
}

fn o_out_of_range(page: u32, o: u32) -> bool {
    let (page, o) = (u64::from(page), u64::from(o));
    o % page != 0 || o > MOST_O
}

/// The page first: S and O are measured by it.
pub fn profile_out_of_range(p: &Profile) -> bool {
    if page_out_of_range(p.page) {
        return true;
    }
    let sizes = m_out_of_range(p.m) || s_out_of_range(p.page, p.s) || o_out_of_range(p.page, p.o);
    sizes || p.hardware == 0 || p.serial.len() > MOST_SERIAL
}

pub fn flash_too_short(p: &Profile, flash_len: usize) -> bool {
    (flash_len as u64) < u64::from(p.o) + u64::from(p.s)
}

/// The rules on next, w and count, by the page of this profile: the state doesn't say under which one it was made.
fn upload_malformed(p: &Profile, s: &State) -> bool {
    let (next, w, count) = (u64::from(s.next), u64::from(s.w), u64::from(s.count));
    if next > u64::from(p.s) {
        return true;
    }
    if w > next % u64::from(p.page) {
        return true;
    }
    count > next - w
}

pub fn state_malformed(p: &Profile, s: &State) -> bool {
    let too_long = s.reply_len > p.m;
    let on_rs485 = p.bus == Bus::Rs485 && s.reply_len > 0;
    upload_malformed(p, s) || too_long || on_rs485
}

/// Numbers 2 to 5, in the order that board calls test them.
pub fn refusal(p: &Profile, s: &State, flash_len: usize, room: usize) -> Option<u8> {
    if profile_out_of_range(p) {
        return Some(2);
    }
    if flash_too_short(p, flash_len) {
        return Some(3);
    }
    if state_malformed(p, s) {
        return Some(4);
    }
    if (room as u64) < u64::from(p.m) {
        return Some(5);
    }
    None
}
