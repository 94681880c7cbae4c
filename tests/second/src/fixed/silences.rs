//! Fixed cases: why a frame got silence, and the tally (request W3).

use super::{busy_state, image, state, title, with_bad_crc};
use crate::cases::Sheet;
use rules::check::{framed, general_frame, plain_profile, write_frame};
use rules::model::*;
use rules::sums::push_crc16;
use rules::tally::Tally;

const ON: Bus = Bus::Rs485;
const MOST: u16 = 65_535;

pub fn silences(sheet: &mut Sheet) {
    lengths(sheet);
    addresses(sheet);
    general_calls(sheet);
    amid_an_upload(sheet);
    while_running(sheet);
    plain_calls(sheet);
    kept(sheet);
    answered_or_not(sheet);
    refused(sheet);
    ends_of_the_counters(sheet);
    on_i2c(sheet);
    i2c_ends(sheet);
    last_bytes_of_the_flash(sheet);
}

/// A frame of this length to an address, with its right check sum where there is room for one.
fn frame_of(length: usize, address: u8) -> Vec<u8> {
    let mut frame = vec![0; length.max(2) - 2];
    if let Some(first) = frame.first_mut() {
        *first = address;
    }
    push_crc16(&mut frame);
    frame.truncate(length);
    frame
}

/// One frame of each kind of silence for the board at 8 to 15, in the order of the numbers, then one that is answered.
fn one_of_each(m: usize) -> [Vec<u8>; 5] {
    let whole = framed(ON, 8, VERSION, &[]);
    [whole[..3].to_vec(), frame_of(m + 1, 8), with_bad_crc(whole.clone()), framed(ON, 16, VERSION, &[]), whole]
}

fn tally(sheet: &mut Sheet, counters: [u16; 5]) {
    sheet.tally(&Tally::of(counters));
}

// ---- the numbers and their order

/// Each length at an edge, to the board, to another and to all, with a right and a wrong check sum.
fn lengths(sheet: &mut Sheet) {
    for (m, short) in [(32usize, 0), (64, 3), (256, 2)] {
        title(sheet, &format!("silence_by_length M={m}"), ON);
        sheet.board(ON, m as u32, 512, 0);
        for length in (short..=4).chain([m, m + 1, 600]) {
            for address in [8, 16, 0] {
                let frame = frame_of(length, address);
                sheet.counted(0, &frame);
                if length > 1 {
                    sheet.counted(0, &with_bad_crc(frame));
                }
            }
        }
    }
    title(sheet, "silence_of_writes_of_M_and_more_bytes", ON);
    for m in [33usize, 255] {
        sheet.board(ON, m as u32, 512, 0);
        for data in [m - 6, m - 5] {
            for address in [8, 7] {
                sheet.counted(address, &write_frame(ON, address, 0, &image(data)));
            }
        }
    }
}

/// Foreign in the default range and beside an own address; the separate address says nothing.
fn addresses(sheet: &mut Sheet) {
    title(sheet, "foreign_to_the_default_range", ON);
    sheet.board(ON, 32, 64, 0);
    for address in [0, 1, 7, 8, 15, 16, 24, 127, 128, 136, 247, 248, 255] {
        sheet.counted(8, &framed(ON, address, VERSION, &[]));
    }
    for own in [0, 8, 20, 255] {
        title(sheet, &format!("foreign_to_the_board_at_{own}"), ON);
        let mut s = busy_state(ON, false);
        s.own = Own::Address(own);
        sheet.board(ON, 32, 128, 0);
        sheet.state(&s);
        for address in [0, 7, 8, 16, own, own.wrapping_add(1), own ^ 0x80] {
            sheet.counted(own, &framed(ON, address, REVISION, &[]));
        }
        sheet.counted(own, &with_bad_crc(framed(ON, own ^ 1, REVISION, &[])));
    }
    title(sheet, "foreign_after_set_address_and_home_again", ON);
    sheet.fresh();
    for (address, code, args) in [(9, SET_ADDRESS, &[20, 7][..]), (9, VERSION, &[]), (20, VERSION, &[])] {
        sheet.counted(0, &framed(ON, address, code, args));
    }
    sheet.counted(0, &general_frame(ON, 4));
    for address in [20, 9] {
        sheet.counted(0, &framed(ON, address, VERSION, &[]));
    }
}

/// 0 is never foreign: whole frames to it are 1, the others what they are anywhere.
fn general_calls(sheet: &mut Sheet) {
    title(sheet, "other_general_calls", ON);
    sheet.board(ON, 32, 64, 0);
    for code in [VERSION, SET_ADDRESS, START, WRITE, FINALIZE, READ, 0x02, 0x0f, 0x45, 0x47, 0xc6, 0xff] {
        sheet.counted(0, &framed(ON, 0, code, &[]));
    }
    for code in [0x44, 0x46] {
        for args in [&[0][..], &[0, 0], &[0; 28]] {
            sheet.counted(0, &framed(ON, 0, code, args));
        }
    }
    for (name, code) in [("reset", 6), ("reset_address", 4)] {
        title(sheet, &format!("{name}_damaged_short_long"), ON);
        let mut s = busy_state(ON, false);
        s.own = Own::Address(0);
        sheet.board(ON, 32, 128, 0);
        sheet.state(&s);
        let exact = general_frame(ON, code);
        for k in 0..4 {
            let mut damaged = exact.clone();
            damaged[k] ^= 0x08;
            sheet.counted(0, &damaged);
            sheet.counted(0, &exact[..k]);
        }
        sheet.counted(0, &framed(ON, 0, 0x40 + code, &[0; 29]));
        sheet.counted(0, &[exact.clone(), vec![0]].concat());
        sheet.counted(0, &exact);
    }
}

/// State, flash and output stay as they are: the upload goes on where it stood.
fn amid_an_upload(sheet: &mut Sheet) {
    title(sheet, "silence_amid_an_upload", ON);
    sheet.board(ON, 40, 192, 64);
    tally(sheet, [0; 5]);
    let data = image(100);
    for (k, frame) in one_of_each(40).iter().enumerate() {
        let at = k * 20;
        sheet.counted(8, &write_frame(ON, 8, at as u64, &data[at..at + 20]));
        sheet.counted(8, frame);
        sheet.counted(8, &with_bad_crc(write_frame(ON, 8, at as u64 + 20, &data[at..at + 20])));
    }
    sheet.finalize();
    sheet.read_back(128, 35);
}

/// While running every frame is 1 and counts nothing; the exact reset is looked for before.
fn while_running(sheet: &mut Sheet) {
    title(sheet, "no_reasons_while_running", ON);
    sheet.board(ON, 32, 128, 0);
    tally(sheet, [1, 2, 3, 4, 5]);
    sheet.counted(0, &framed(ON, 8, START, &[]));
    let mut frames = one_of_each(32).to_vec();
    frames.extend([vec![], frame_of(600, 8), frame_of(4, 20), with_bad_crc(frame_of(600, 20)), frame_of(2, 0)]);
    let reset = general_frame(ON, 6);
    let near = [general_frame(ON, 4), with_bad_crc(reset.clone()), reset[..3].to_vec(), framed(ON, 0, 0x46, &[0])];
    for frame in frames.iter().chain(&near) {
        sheet.counted(0, frame);
    }
    sheet.frame(0, &frames[0]);
    sheet.counted(0, &reset);
    for frame in &frames {
        sheet.counted(0, frame);
    }
    title(sheet, "no_reasons_while_running_given", ON);
    sheet.state(&busy_state(ON, true));
    for frame in one_of_each(32) {
        sheet.counted(0, &frame);
    }
    sheet.counted(0, &reset);
    sheet.counted(0, &framed(ON, 8, VERSION, &[]));
}

// ---- the tally

/// `R` gives the same numbers and counts nothing.
fn plain_calls(sheet: &mut Sheet) {
    title(sheet, "plain_calls_count_nothing", ON);
    sheet.board(ON, 64, 128, 0);
    tally(sheet, [10, 20, 30, 40, 50]);
    for frame in one_of_each(64) {
        sheet.frame(8, &frame);
        sheet.frame(8, &frame);
        sheet.counted(8, &frame);
    }
}

/// Lines that set something, resets and reset addresses keep the tally; the other bus goes on with it.
fn kept(sheet: &mut Sheet) {
    title(sheet, "tally_kept", ON);
    sheet.board(ON, 32, 128, 0);
    sheet.room(40);
    tally(sheet, [7, 8, 9, 10, 11]);
    for frame in one_of_each(32) {
        sheet.counted(0, &frame);
    }
    for code in [6, 4, 6] {
        sheet.counted(0, &general_frame(ON, code));
        sheet.frame(0, &general_frame(ON, code));
        sheet.counted(0, &framed(ON, 16, VERSION, &[]));
    }
    sheet.profile(&plain_profile(ON, 33, 64, 64));
    sheet.counted(0, &frame_of(33, 8));
    sheet.flash(192, 0, 0);
    sheet.counted(0, &frame_of(34, 8));
    sheet.fresh();
    sheet.counted(0, &frame_of(3, 8));
    sheet.state(&state(64, 0, 0, 0));
    sheet.counted(0, &frame_of(5, 8));
    sheet.room(33);
    sheet.counted(0, &with_bad_crc(frame_of(5, 8)));
    sheet.board(Bus::I2c, 32, 64, 0);
    sheet.counted(8, &framed(Bus::I2c, 8, VERSION, &[]));
    sheet.board(ON, 32, 64, 0);
    sheet.counted(8, &framed(ON, 7, VERSION, &[]));
}

/// A refused command is answered; start, and set address for another type, are not.
fn answered_or_not(sheet: &mut Sheet) {
    title(sheet, "answered_and_not_answered", ON);
    sheet.board(ON, 32, 64, 0);
    tally(sheet, [0, 0, 0, 0, 100]);
    let commands: [(u8, &[u8]); 12] = [
        (VERSION, &[]),
        (VERSION, &[1]),
        (0x02, &[]),
        (0xff, &[1, 2]),
        (SET_ADDRESS, &[9, 77]),
        (SET_ADDRESS, &[0, 77]),
        (SET_ADDRESS, &[0, 7]),
        (SET_ADDRESS, &[9]),
        (WRITE, &[0, 1, 5]),
        (WRITE, &[0, 0, 5]),
        (READ, &[0, 60, 5]),
        (START, &[0]),
    ];
    for (code, args) in commands {
        sheet.counted(0, &framed(ON, 8, code, args));
    }
    sheet.read(8);
    for (code, args) in [(FINALIZE, &[][..]), (START, &[]), (VERSION, &[])] {
        sheet.counted(0, &framed(ON, 8, code, args));
    }
}

/// Refused calls, by 2, 3, 4 and 5, count nothing, whatever the frame is.
fn refused(sheet: &mut Sheet) {
    for bus in [ON, Bus::I2c] {
        title(sheet, "refused_calls_count_nothing", bus);
        sheet.board(bus, 32, 128, 0);
        tally(sheet, [5, 4, 3, 2, 1]);
        let mut frames = one_of_each(32).to_vec();
        if bus == Bus::I2c {
            frames = vec![framed(bus, 8, VERSION, &[]), vec![], general_frame(bus, 6)];
        }
        let mut malformed = busy_state(bus, false);
        malformed.w = 7;
        for case in 0..4 {
            match case {
                0 => sheet.profile(&plain_profile(bus, 31, 128, 0)),
                1 => sheet.flash(127, 0, 255),
                2 => sheet.state(&malformed),
                _ => sheet.room(31),
            }
            for frame in &frames {
                sheet.counted(8, frame);
            }
            sheet.board(bus, 32, 128, 0);
        }
        sheet.counted(8, &framed(bus, 8, VERSION, &[]));
    }
}

/// Each counter from 65533 to its end, the others near theirs; then a frame of each kind with all at their ends.
fn ends_of_the_counters(sheet: &mut Sheet) {
    title(sheet, "ends_of_the_counters", ON);
    sheet.board(ON, 32, 64, 0);
    for (k, frame) in one_of_each(32).iter().enumerate() {
        let mut counters = [65_534, 255, 65_280, 0, 256];
        counters[k] = 65_533;
        tally(sheet, counters);
        for _ in 0..4 {
            sheet.counted(0, frame);
        }
    }
    for start in [[MOST; 5], [MOST - 1; 5], [255; 5], [0, MOST, 0, MOST, 0]] {
        tally(sheet, start);
        for frame in one_of_each(32) {
            sheet.counted(0, &frame);
        }
    }
}

/// On I2C only answered frames are counted. Reads are no received frames.
fn on_i2c(sheet: &mut Sheet) {
    let bus = Bus::I2c;
    title(sheet, "tally_on_the_bus", bus);
    sheet.board(bus, 32, 128, 0);
    tally(sheet, [1, 2, 3, 4, 5]);
    let version = framed(bus, 8, VERSION, &[]);
    let frames: [(u8, Vec<u8>); 17] = [
        (8, version.clone()),
        (8, vec![]),
        (8, vec![0x06]),
        (8, version[..1].to_vec()),
        (8, with_bad_crc(version.clone())),
        (8, framed(bus, 8, VERSION, &[0; 31])),
        (8, framed(bus, 8, VERSION, &[0; 598])),
        (8, framed(bus, 8, 0x02, &[])),
        (8, framed(bus, 8, SET_ADDRESS, &[9, 77])),
        (7, version.clone()),
        (16, vec![]),
        (16, with_bad_crc(version.clone())),
        (136, version.clone()),
        (0, version.clone()),
        (0, vec![]),
        (0, vec![0x04]),
        (0, vec![0x06]),
    ];
    for (address, frame) in &frames {
        sheet.counted(*address, frame);
        sheet.read(8);
    }
    sheet.counted(8, &version);
    for address in [8, 9, 0, 16, 8] {
        sheet.read(address);
    }
    sheet.frame(8, &version);
    sheet.counted(8, &framed(bus, 8, START, &[]));
    for (address, frame) in &frames[..7] {
        sheet.counted(*address, frame);
    }
    sheet.counted(0, &general_frame(bus, 6));
    sheet.counted(8, &version);
}

fn i2c_ends(sheet: &mut Sheet) {
    title(sheet, "ends_of_the_counters", Bus::I2c);
    sheet.board(Bus::I2c, 32, 128, 0);
    for start in [[MOST - 2; 5], [MOST; 5], [255; 5]] {
        tally(sheet, start);
        for frame in [vec![], framed(Bus::I2c, 8, VERSION, &[]), vec![0; 33], vec![8, 0, 6, 0x70]] {
            sheet.counted(8, &frame);
        }
        sheet.counted(20, &[]);
    }
    tally(sheet, [0; 5]);
}

/// A long frame's bytes reach no flash: a write that fits S but not M.
fn last_bytes_of_the_flash(sheet: &mut Sheet) {
    title(sheet, "long_write_takes_nothing", ON);
    sheet.board(ON, 64, 64, 0);
    for data in [58, 59, 64] {
        sheet.counted(8, &write_frame(ON, 8, 0, &image(data)));
        sheet.counted(8, &framed(ON, 8, FINALIZE, &[]));
    }
    sheet.read_back(64, 59);
}

#[cfg(test)]
mod tests {
    use super::*;
    use std::collections::BTreeSet;

    /// Every number that a frame can get, on each bus and by each call, and every counter at its end.
    #[test]
    fn every_number() {
        let mut sheet = Sheet::default();
        silences(&mut sheet);
        let mut bus = "";
        let mut calls = Vec::new();
        for line in sheet.cases.lines() {
            match line.split(' ').collect::<Vec<&str>>()[..] {
                ["P", on, ..] => bus = on,
                [letter @ ("R" | "C" | "I"), ..] => calls.push((letter, bus)),
                _ => {}
            }
        }
        let mut numbers = BTreeSet::new();
        let mut ends = [false; 5];
        for ((letter, bus), answer) in calls.iter().zip(sheet.expected.lines()) {
            let fields: Vec<&str> = answer.split(' ').collect();
            assert_eq!(*letter, fields[0]);
            numbers.insert((*letter, *bus, fields[1].parse::<u8>().unwrap()));
            if *letter == "C" {
                (0..5).for_each(|k| ends[k] |= fields[fields.len() - 5 + k] == "65535");
            }
        }
        assert_eq!(calls.len(), sheet.expected.lines().count());
        assert_eq!(ends, [true; 5]);
        let with = |letter, bus, of: &[u8]| of.iter().map(|&n| (letter, bus, n)).collect::<Vec<_>>();
        let rs485 = [0, 1, 2, 3, 4, 5, 15, 16, 17, 18];
        for (letter, bus, of) in [("C", "1", &rs485[..]), ("C", "0", &rs485[..6]), ("R", "1", &[0, 1, 15, 16, 17, 18])] {
            assert!(with(letter, bus, of).iter().all(|entry| numbers.contains(entry)), "{letter} on bus {bus}");
        }
        assert!(!numbers.iter().any(|(_, bus, number)| *bus == "0" && *number > 5));
    }
}
