//! Fixed cases: version 0.0 and the reset of a running application (request W4).

use super::{busy_state, image, title};
use crate::cases::{bus_number, reply, Sheet, BUSES};
use rules::check::{framed, general_frame, plain_profile};
use rules::model::*;

const MOST: u32 = 4_294_967_295;

/// Running, known and unknown ones, most of them next to each other.
const VERSIONS: [(u8, u8); 20] = [
    (0, 0),
    (0, 1),
    (0, 2),
    (0, 3),
    (0, 255),
    (1, 0),
    (1, 1),
    (1, 2),
    (1, 255),
    (2, 0),
    (2, 1),
    (2, 2),
    (2, 3),
    (2, 255),
    (3, 0),
    (3, 3),
    (40, 0),
    (128, 0),
    (255, 0),
    (255, 255),
];

/// One version of each case: application running, known, not known.
const CASES: [(u8, u8); 5] = [(0, 0), (1, 0), (2, 2), (0, 1), (3, 0)];

pub fn running_applications(sheet: &mut Sheet) {
    single_bits(sheet);
    for bus in BUSES {
        versions(sheet, bus);
        longest_frames(sheet, bus);
        rooms(sheet, bus);
        order(sheet, bus);
    }
    for bus in BUSES {
        after_start(sheet, bus);
        given_states(sheet, bus);
        own_addresses(sheet, bus);
        at_other_addresses(sheet, bus);
        other_bus(sheet, bus);
        refused_boards(sheet, bus);
    }
}

// ---- the version rule and the call

/// One bit away from 0.0 is not running.
fn single_bits(sheet: &mut Sheet) {
    sheet.note("version_one_bit_from_0_0");
    sheet.room(256);
    for bit in 0..8usize {
        for (major, minor) in [(0, 1 << bit), (1 << bit, 0)] {
            sheet.version(major, minor);
            sheet.reset_running(BUSES[bit % 2], 64, major, minor);
        }
    }
}

fn versions(sheet: &mut Sheet, bus: Bus) {
    title(sheet, "reset_running_versions", bus);
    sheet.room(256);
    for (major, minor) in VERSIONS {
        sheet.reset_running(bus, 64, major, minor);
    }
}

fn longest_frames(sheet: &mut Sheet, bus: Bus) {
    title(sheet, "reset_running_refusal_2", bus);
    sheet.room(256);
    for m in [0, 31, 32, 33, 255, 256, 257, 65_568, MOST] {
        for (major, minor) in [(0, 0), (2, 2), (0, 1)] {
            sheet.reset_running(bus, m, major, minor);
        }
    }
}

/// 6 only where there is something to write.
fn rooms(sheet: &mut Sheet, bus: Bus) {
    title(sheet, "reset_running_refusal_6", bus);
    for room in [0, 1, 2, 3, 4, 5, 256, 512] {
        sheet.room(room);
        for (major, minor) in [(0, 0), (2, 2), (0, 1)] {
            sheet.reset_running(bus, 32, major, minor);
        }
    }
    sheet.room(256);
}

/// M out of range or not, room for the reset or not.
fn order(sheet: &mut Sheet, bus: Bus) {
    title(sheet, "reset_running_order_2_14_1_6", bus);
    let whole = general_frame(bus, 6).len();
    for m in [31, 32, 256, 257] {
        for room in [whole - 1, whole] {
            sheet.room(room);
            for (major, minor) in CASES {
                sheet.reset_running(bus, m, major, minor);
            }
        }
    }
    sheet.room(256);
}

// ---- what it writes, sent to boards

/// What the call writes for the board's bus and M.
fn reset_made(sheet: &mut Sheet) -> String {
    let (bus, m) = sheet.runner.profile.as_ref().map_or((Bus::I2c, 32), |p| (p.bus, p.m));
    sheet.reset_running(bus, m, 0, 0);
    sheet.made()
}

/// The master's way from an application's version, 0.0, to a bootloader that answers: the own address is gone, the default
/// range hears again.
fn reset_and_ask(sheet: &mut Sheet, own: u8) {
    let bus = sheet.bus();
    sheet.decode(bus, u32::from(VERSION), own, 0, &reply(bus, own, OK, &[0, 0]));
    sheet.version(0, 0);
    let made = reset_made(sheet);
    sheet.line(&format!("R 0 {made}"));
    sheet.read(own);
    sheet.frame(own, &framed(bus, own, VERSION, &[]));
    sheet.read(8);
    ask(sheet);
}

/// A bootloader's version is a known one: nothing to reset.
fn ask(sheet: &mut Sheet) {
    let bus = sheet.bus();
    sheet.frame(8, &framed(bus, 8, VERSION, &[]));
    let made = sheet.made();
    sheet.line(&format!("D {} {VERSION} 8 0 {made}", bus_number(bus)));
    sheet.version(2, 2);
    sheet.reset_running(bus, 64, 2, 2);
}

fn after_start(sheet: &mut Sheet, bus: Bus) {
    title(sheet, "reset_of_an_application_that_was_started", bus);
    sheet.board(bus, 64, 192, 64);
    sheet.send(SET_ADDRESS, &[42, 7]);
    sheet.upload(&image(90), 50);
    sheet.finalize();
    sheet.write(90, &image(10));
    sheet.send(START, &[]);
    sheet.frame(42, &framed(bus, 42, VERSION, &[]));
    sheet.read(42);
    reset_and_ask(sheet, 42);
    title(sheet, "upload_after_the_reset", bus);
    sheet.write(100, &[1]);
    sheet.finalize();
    sheet.read_back(128, 50);
    sheet.upload(&image(90), 50);
    sheet.finalize();
    title(sheet, "reset_of_a_board_that_is_not_running", bus);
    sheet.send(SET_ADDRESS, &[42, 7]);
    sheet.upload(&image(75), 50);
    reset_and_ask(sheet, 42);
    title(sheet, "reset_of_a_fresh_board", bus);
    let made = reset_made(sheet);
    for _ in 0..2 {
        sheet.line(&format!("R 0 {made}"));
    }
    ask(sheet);
}

fn given_states(sheet: &mut Sheet, bus: Bus) {
    for running in [true, false] {
        title(sheet, if running { "reset_of_a_given_running_board" } else { "reset_of_a_given_upload" }, bus);
        sheet.board(bus, 32, 128, 64);
        sheet.flash(256, 3, 1);
        let mut s = busy_state(bus, running);
        s.own = Own::Address(42);
        sheet.state(&s);
        reset_and_ask(sheet, 42);
        sheet.read_back(128, 27);
        sheet.write(70, &[1]);
        sheet.finalize();
    }
}

/// Also boards that hear nothing but general calls.
fn own_addresses(sheet: &mut Sheet, bus: Bus) {
    title(sheet, "reset_of_running_boards_at_any_address", bus);
    let made = reset_made(sheet);
    for own in [0, 1, 8, 127, 128, 200, 255] {
        let mut s = busy_state(bus, true);
        s.own = Own::Address(own);
        sheet.state(&s);
        sheet.line(&format!("R 0 {made}"));
    }
}

/// I2C: no general call. RS485 doesn't look at the separate address.
fn at_other_addresses(sheet: &mut Sheet, bus: Bus) {
    for running in [true, false] {
        title(sheet, if running { "reset_at_another_address_running" } else { "reset_at_another_address" }, bus);
        let made = reset_made(sheet);
        for address in [1, 6, 8, 9, 127, 128, 255] {
            sheet.state(&busy_state(bus, running));
            sheet.line(&format!("R {address} {made}"));
        }
    }
}

/// The reset of the other bus resets nothing here.
fn other_bus(sheet: &mut Sheet, bus: Bus) {
    title(sheet, "reset_of_the_other_bus", bus);
    let other = if bus == Bus::I2c { Bus::Rs485 } else { Bus::I2c };
    for running in [true, false] {
        sheet.state(&busy_state(bus, running));
        sheet.reset_running(other, 32, 0, 0);
        let made = sheet.made();
        sheet.line(&format!("R 0 {made}"));
    }
}

/// Boards that answer 2 to 5 are not reset.
fn refused_boards(sheet: &mut Sheet, bus: Bus) {
    title(sheet, "reset_of_refused_boards", bus);
    sheet.board(bus, 32, 128, 64);
    let made = reset_made(sheet);
    let reset = format!("R 0 {made}");
    sheet.state(&busy_state(bus, true));
    for room in [0, 31, 32] {
        sheet.room(room);
        sheet.line(&reset);
    }
    let mut malformed = busy_state(bus, true);
    malformed.w = 7;
    sheet.state(&malformed);
    sheet.line(&reset);
    sheet.state(&busy_state(bus, true));
    sheet.flash(191, 0, 255);
    sheet.line(&reset);
    sheet.flash(192, 0, 255);
    for m in [31, 32] {
        sheet.profile(&plain_profile(bus, m, 128, 64));
        sheet.line(&reset);
    }
}

#[cfg(test)]
mod tests {
    use super::*;
    use std::collections::BTreeSet;

    /// On each bus every number of the call; the version rule's three cases.
    #[test]
    fn every_number() {
        let mut sheet = Sheet::default();
        running_applications(&mut sheet);
        let calls = sheet.cases.lines().filter(|line| line.starts_with(['R', 'I', 'D', 'V', 'A']));
        let mut numbers = BTreeSet::new();
        for (call, answer) in calls.zip(sheet.expected.lines()) {
            let (call, answer): (Vec<&str>, Vec<&str>) = (call.split(' ').collect(), answer.split(' ').collect());
            assert_eq!(call[0], answer[0]);
            match call[0] {
                "A" => numbers.insert((call[0], call[1], answer[1])),
                "V" => numbers.insert((call[0], "-", answer[1])),
                _ => false,
            };
        }
        let on = |bus| ["0", "1", "14", "2", "6"].map(|number| ("A", bus, number));
        let rule = ["0", "14", "40"].map(|number| ("V", "-", number));
        assert_eq!(numbers.into_iter().collect::<Vec<_>>(), [&on("0")[..], &on("1"), &rule].concat());
    }
}
