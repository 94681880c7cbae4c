//! Fixed cases: command codes, argument lengths, information, read.

use super::{image, title};
use crate::cases::{most_results, Sheet, BUSES};
use rules::check::{plain_profile};
use rules::model::*;

pub fn commands(sheet: &mut Sheet) {
    for bus in BUSES {
        every_code(sheet, bus);
        argument_lengths(sheet, bus);
        information(sheet, bus);
        reads(sheet, bus);
    }
}

fn every_code(sheet: &mut Sheet, bus: Bus) {
    title(sheet, "every_command_code", bus);
    sheet.board(bus, 32, 64, 0);
    for code in 0..=255u8 {
        sheet.send(code, &[]);
        if code == START {
            sheet.general(6);
        }
    }
    title(sheet, "unserved_codes_with_arguments", bus);
    for code in [0x02, 0x0a, 0x0b, 0x0d, 0x0e, 0x0f, 0x10, 0x44, 0x46, 0x80, 0xff] {
        for length in [1, 2, 3, 10] {
            sheet.send(code, &vec![0; length]);
        }
    }
}

fn argument_lengths(sheet: &mut Sheet, bus: Bus) {
    title(sheet, "argument_lengths_of_each_command", bus);
    sheet.board(bus, 32, 64, 0);
    sheet.write(0, &[0, 0, 0]);
    for code in 0..15 {
        for length in 0..6 {
            sheet.send(code, &[0, 3, 0, 7, 7][..length.min(5)]);
            if sheet.runner.state.running || sheet.own() != 8 {
                sheet.general(6);
                sheet.write(0, &[0, 0, 0]);
            }
        }
    }
    title(sheet, "empty_serial_with_arguments", bus);
    let mut p = plain_profile(bus, 32, 64, 0);
    p.serial = Vec::new();
    sheet.profile(&p);
    for length in 0..3 {
        sheet.send(SERIAL, &[0, 0][..length]);
    }
}

fn information(sheet: &mut Sheet, bus: Bus) {
    title(sheet, "information_of_different_profiles", bus);
    for (m, s, o) in [(32, 64, 0), (255, 256, 64), (256, 65_472, 0), (200, 4_096, 128), (129, 320, 64)] {
        sheet.board(bus, m, s, o);
        let mut p = plain_profile(bus, m, s, o);
        p.hardware = (m / 2) as u8;
        p.compatible = 0x2f;
        p.actual = 0xfe;
        p.version = (s / 64) as u8;
        p.serial = (0..16).map(|k| (k * 17 + m) as u8).collect();
        sheet.profile(&p);
        for code in [VERSION, HARDWARE_INFO, SERIAL, FINALIZE, REVISION, MAX_PACKET] {
            sheet.send(code, &[]);
            sheet.read(8);
            sheet.read(8);
        }
    }
}

fn reads(sheet: &mut Sheet, bus: Bus) {
    for m in [32, 100, 255, 256] {
        title(sheet, &format!("read_longest M={m}"), bus);
        sheet.board(bus, m, 512, 64);
        sheet.flash(640, 3, 5);
        let most = most_results(bus, m);
        for length in [0, 1, most - 1, most, most + 1, most + 2, 255] {
            sheet.read_flash(0, length as u8);
            sheet.read(8);
        }
        sheet.read_flash(512 - most as u64, most as u8);
        sheet.read_flash(513 - most as u64, most as u8);
    }
    title(sheet, "read_ending_at_S", bus);
    for s in [64, 128, 65_472] {
        sheet.board(bus, 64, s, 64);
        sheet.flash(u64::from(s) + 128, 1, 0);
        let s = u64::from(s);
        for (at, length) in [(s - 5, 5), (s - 5, 6), (s - 1, 1), (s - 1, 2), (s, 0), (s, 1), (s + 1, 0), (65_535, 0), (65_535, 1), (0, 0)] {
            sheet.read_flash(at, length);
        }
    }
    title(sheet, "read_shows_flash_not_waiting_bytes", bus);
    sheet.board(bus, 128, 128, 64);
    sheet.write(0, &image(70));
    sheet.read_flash(60, 10);
    sheet.finalize();
    sheet.read_flash(60, 10);
    title(sheet, "read_high_and_low_address_byte", bus);
    sheet.board(bus, 64, 1024, 64);
    sheet.flash(1152, 1, 0);
    for at in [1, 255, 256, 257, 513, 1000] {
        sheet.read_flash(at, 4);
    }
}
