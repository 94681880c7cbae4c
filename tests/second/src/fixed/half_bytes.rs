//! Fixed cases: check sums by half bytes (request W2). Each entry of both tables decides in each half step.

use super::title;
use crate::cases::{reply, Sheet, BUSES};
use rules::check::write_frame;
use rules::model::*;

/// As the last byte before the check sum these use all sixteen entries in the first half step and in the second, on either bus.
const LAST: [u8; 16] =
    [0x00, 0x31, 0x62, 0x53, 0xc4, 0xf5, 0xa6, 0x97, 0x88, 0xb9, 0xea, 0xdb, 0x4c, 0x7d, 0x2e, 0x1f];

pub fn half_bytes(sheet: &mut Sheet) {
    for bus in BUSES {
        received(sheet, bus);
        made(sheet, bus);
        decoded(sheet, bus);
    }
}

/// Every byte value up to 249: the longest frame on RS485.
fn many() -> Vec<u8> {
    (0..250).collect()
}

/// With bit `k` of the check sum changed.
fn with_wrong_bit(bus: Bus, mut bytes: Vec<u8>, k: usize) -> Vec<u8> {
    let at = match bus {
        Bus::I2c => bytes.len() - 1,
        Bus::Rs485 => bytes.len() - 1 - k / 8 % 2,
    };
    bytes[at] ^= 1 << (k % 8);
    bytes
}

fn received(sheet: &mut Sheet, bus: Bus) {
    title(sheet, "half_bytes_of_received_frames", bus);
    sheet.board(bus, 256, 256, 0);
    for (k, last) in LAST.into_iter().enumerate() {
        let frame = write_frame(bus, 8, 0, &[last]);
        sheet.frame(8, &frame);
        sheet.frame(8, &with_wrong_bit(bus, frame, k));
    }
    title(sheet, "half_bytes_of_a_long_frame", bus);
    let frame = write_frame(bus, 8, 0, &many());
    sheet.frame(8, &with_wrong_bit(bus, frame.clone(), 3));
    sheet.frame(8, &frame);
}

fn made(sheet: &mut Sheet, bus: Bus) {
    title(sheet, "half_bytes_of_requests", bus);
    for last in LAST {
        sheet.encode(bus, 32, u32::from(WRITE), 8, 0, 0, &[last]);
    }
    sheet.encode(bus, 256, u32::from(WRITE), 8, 0, 0, &many());
}

fn decoded(sheet: &mut Sheet, bus: Bus) {
    title(sheet, "half_bytes_of_decoded_replies", bus);
    let code = u32::from(SERIAL);
    for (k, last) in LAST.into_iter().enumerate() {
        let bytes = reply(bus, 8, OK, &[last]);
        sheet.decode(bus, code, 8, 0, &bytes);
        sheet.decode(bus, code, 8, 0, &with_wrong_bit(bus, bytes, k));
    }
    let bytes = reply(bus, 8, OK, &many());
    sheet.decode(bus, code, 8, 0, &bytes);
    sheet.decode(bus, code, 8, 0, &with_wrong_bit(bus, bytes, 3));
}

#[cfg(test)]
mod tests {
    use super::*;
    use rules::half_bytes::entries;
    use std::collections::BTreeSet;

    fn sheet() -> Sheet {
        let mut sheet = Sheet::default();
        half_bytes(&mut sheet);
        sheet
    }

    /// Calls of a letter on a bus, with their answers, both cut in fields.
    fn calls<'a>(sheet: &'a Sheet, letter: &str, bus: Bus) -> Vec<(Vec<&'a str>, Vec<&'a str>)> {
        let number = if bus == Bus::I2c { "0" } else { "1" };
        let mut answers = sheet.expected.lines();
        let mut standing = "";
        let mut found = Vec::new();
        for line in sheet.cases.lines() {
            let fields: Vec<&str> = line.split(' ').collect();
            match fields[0] {
                "P" => standing = fields[1],
                "R" | "E" | "D" => {
                    let answer = answers.next().unwrap().split(' ').collect();
                    let on = if fields[0] == "R" { standing } else { fields[1] };
                    if fields[0] == letter && on == number {
                        found.push((fields, answer));
                    }
                }
                _ => {}
            }
        }
        found
    }

    fn bytes(text: &str) -> Vec<u8> {
        let pair = |k: usize| u8::from_str_radix(&text[k..k + 2], 16).unwrap();
        (0..text.len()).step_by(2).map(pair).collect()
    }

    /// The frame, request or reply of a call, if the answer shows that its check sum is right.
    fn right(call: &[&str], answer: &[&str]) -> Option<Vec<u8>> {
        match (call[0], answer[1], answer[2]) {
            ("R", "0", "0000d7") => Some(bytes(call[2])),
            ("R", "0", made) if made.starts_with("080000") => Some(bytes(call[2])),
            ("E", "0", made) => Some(bytes(made)),
            ("D", "0", "0") => Some(bytes(call[5])),
            _ => None,
        }
    }

    /// Half step and entry of the last byte before each right check sum.
    fn decisive(sheet: &Sheet, letter: &str, bus: Bus) -> BTreeSet<(usize, usize)> {
        let sum = if bus == Bus::I2c { 1 } else { 2 };
        let mut used = BTreeSet::new();
        for (call, answer) in calls(sheet, letter, bus) {
            let Some(bytes) = right(&call, &answer) else {
                continue;
            };
            let [first, second] = *entries(bus, &bytes[..bytes.len() - sum]).last().unwrap();
            used.extend([(0, first), (1, second)]);
        }
        used
    }

    #[test]
    fn each_entry_in_each_half_step() {
        let sheet = sheet();
        for bus in BUSES {
            for letter in ["R", "E", "D"] {
                assert_eq!(decisive(&sheet, letter, bus).len(), 32, "{letter} {bus:?}");
            }
        }
    }

    /// Received frames and replies: as many with a wrong check sum as with a right one.
    #[test]
    fn half_of_them_wrong() {
        let sheet = sheet();
        for bus in BUSES {
            for letter in ["R", "D"] {
                let calls = calls(&sheet, letter, bus);
                let count = calls.iter().filter(|(call, answer)| right(call, answer).is_some()).count();
                assert_eq!((calls.len(), count), (34, 17), "{letter} {bus:?}");
            }
        }
    }
}
