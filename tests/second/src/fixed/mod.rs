//! The fixed set of cases: all groups in order.

mod addresses;
pub mod alarms;
mod commands;
mod examples;
mod frames;
mod half_bytes;
mod master;
mod pages;
mod refusals;
mod reserved;
mod running;
mod silences;
mod uploads;
mod writes;

use crate::cases::Sheet;
use rules::model::{Bus, Own, State};

pub fn all() -> Sheet {
    let mut sheet = Sheet::default();
    examples::examples(&mut sheet);
    refusals::refusals(&mut sheet);
    frames::frames(&mut sheet);
    half_bytes::half_bytes(&mut sheet);
    addresses::addresses(&mut sheet);
    reserved::reserved_addresses(&mut sheet);
    addresses::general_calls(&mut sheet);
    commands::commands(&mut sheet);
    writes::writes(&mut sheet);
    uploads::lists(&mut sheet);
    uploads::whole_uploads(&mut sheet);
    master::encoder(&mut sheet);
    master::decoder(&mut sheet);
    master::two_reads(&mut sheet);
    master::versions(&mut sheet);
    running::running_applications(&mut sheet);
    silences::silences(&mut sheet);
    append_random(&mut sheet);
    pages::pages(&mut sheet);
    sheet
}

/// Some random lists with pages of 64, so that the fixed set has mixed traffic too.
fn append_random(sheet: &mut Sheet) {
    let random = crate::cases::random_with(2202, 60, &[64]);
    for line in random.cases.lines() {
        sheet.line(line);
    }
}

/// Named like `write_ending_at_S i2c`.
fn title(sheet: &mut Sheet, name: &str, bus: Bus) {
    let bus = match bus {
        Bus::I2c => "i2c",
        Bus::Rs485 => "rs485",
    };
    sheet.note(&format!("{name} {bus}"));
}

fn image(size: usize) -> Vec<u8> {
    (0..size).map(|k| (k * 7 + k / 64 + 1) as u8).collect()
}

/// A state with marked dead bytes.
fn state(next: u32, w: u32, count: u32, reply_len: u32) -> State {
    let mut s = State::fresh();
    s.next = next;
    s.w = w;
    s.count = count;
    s.reply_len = reply_len;
    for (k, byte) in s.waiting.iter_mut().enumerate() {
        *byte = 0x40 + k as u8;
    }
    for (k, byte) in s.reply.iter_mut().enumerate() {
        *byte = 0xff - k as u8;
    }
    s
}

/// A state with every part in use.
fn busy_state(bus: Bus, running: bool) -> State {
    let mut s = state(70, 6, 3, if bus == Bus::I2c { 5 } else { 0 });
    s.own = Own::Address(9);
    s.running = running;
    s
}

fn with_bad_crc(mut frame: Vec<u8>) -> Vec<u8> {
    if let Some(last) = frame.last_mut() {
        *last ^= 0x10;
    }
    frame
}

#[cfg(test)]
mod tests {
    use crate::cases::Sheet;

    /// E1 to E12 as document 01 prints them.
    #[test]
    fn printed_examples() {
        let mut sheet = Sheet::default();
        super::examples::examples(&mut sheet);
        let lines: Vec<&str> = sheet.expected.lines().collect();
        let starts = [
            (0, "E 0 00f3 1"),
            (1, "R 0 0002020223 "),
            (3, "E 0 07e6 1"),
            (4, "E 0 05e8 1"),
            (7, "R 0 040083 "),
            (8, "R 0 0000d7 "),
            (9, "E 0 08000670 1"),
            (13, "E 0 00468042 1"),
            (14, "E 0 00440183 1"),
            (17, "R 0 0000d7 256 0 70 6 1 111111111111 "),
            (18, "R 0 0002000209 256 0 70 0 2 - "),
            (21, "R 0 0002000007 256 0 70 0 0 - "),
            (25, "R 0 000200030e 256 0 71 0 3 - "),
        ];
        for (k, start) in starts {
            assert!(lines[k].starts_with(start), "line {k}: {}", lines[k]);
        }
        let read = format!("R 0 0080{}{}", "11".repeat(70), "ff".repeat(58));
        assert!(lines[19].starts_with(&read));
    }
}
