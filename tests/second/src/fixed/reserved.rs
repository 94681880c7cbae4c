//! Fixed cases: set address and the reserved addresses (request W1).

use super::{image, state, title, with_bad_crc};
use crate::cases::{Sheet, BUSES};
use rules::check::framed;
use rules::model::*;

pub fn reserved_addresses(sheet: &mut Sheet) {
    for bus in BUSES {
        every_new_address(sheet, bus);
        types(sheet, bus);
        lengths(sheet, bus);
        refused_amid_upload(sheet, bus);
        last_reply_of_a_refusal(sheet, bus);
        boards_at_reserved_addresses(sheet, bus);
        tests_before(sheet, bus);
    }
}

/// Some that both buses refuse and some that one refuses.
const SOME: [u8; 9] = [0, 3, 7, 120, 127, 128, 248, 250, 255];

fn every_new_address(sheet: &mut Sheet, bus: Bus) {
    title(sheet, "set_address_0_to_255", bus);
    sheet.board(bus, 32, 64, 0);
    for new in 0..=255 {
        sheet.fresh();
        sheet.send(SET_ADDRESS, &[new, 7]);
    }
}

fn types(sheet: &mut Sheet, bus: Bus) {
    title(sheet, "set_address_reserved_with_each_type", bus);
    sheet.board(bus, 32, 64, 0);
    for new in SOME {
        for hardware in [0, 7, 6, 8, 255] {
            sheet.send(VERSION, &[]);
            sheet.send(SET_ADDRESS, &[new, hardware]);
            sheet.read(8);
            sheet.general(4);
        }
    }
}

fn lengths(sheet: &mut Sheet, bus: Bus) {
    title(sheet, "set_address_reserved_with_wrong_lengths", bus);
    for new in [0, 255] {
        for hardware in [7, 9] {
            for length in 0..=4 {
                sheet.send(VERSION, &[]);
                sheet.send(SET_ADDRESS, &[new, hardware, 7, 7][..length]);
                sheet.read(8);
            }
        }
    }
}

fn refused_amid_upload(sheet: &mut Sheet, bus: Bus) {
    title(sheet, "set_address_refused_amid_upload", bus);
    sheet.board(bus, 64, 192, 64);
    sheet.send(SET_ADDRESS, &[42, 7]);
    sheet.upload(&image(90), 50);
    for (new, hardware) in [(0, 7), (255, 0), (0, 0), (248, 7)] {
        sheet.send(SET_ADDRESS, &[new, hardware]);
        sheet.frame(new, &framed(bus, new, VERSION, &[]));
    }
    sheet.write(90, &image(50));
    sheet.send(SET_ADDRESS, &[0, 7]);
    sheet.finalize();
    sheet.read_back(140, 50);
    title(sheet, "set_address_refused_on_a_given_upload", bus);
    for own in [Own::DefaultRange, Own::Address(42)] {
        let mut s = state(100, 20, 7, if bus == Bus::I2c { 9 } else { 0 });
        s.own = own;
        sheet.state(&s);
        sheet.send(SET_ADDRESS, &[0, 7]);
        sheet.finalize();
    }
}

fn last_reply_of_a_refusal(sheet: &mut Sheet, bus: Bus) {
    title(sheet, "set_address_refusal_read_at_the_old_address", bus);
    sheet.board(bus, 32, 64, 0);
    sheet.send(SET_ADDRESS, &[42, 7]);
    for new in SOME {
        sheet.send(REVISION, &[]);
        sheet.send(SET_ADDRESS, &[new, 0]);
        for at in [42, new, new & 0x7f, 8, 0] {
            sheet.read(at);
        }
        sheet.general(4);
        sheet.send(SET_ADDRESS, &[42, 0]);
    }
    title(sheet, "set_address_refused_in_the_default_range", bus);
    sheet.fresh();
    sheet.frame(12, &framed(bus, 12, SET_ADDRESS, &[255, 7]));
    for at in 7..=16 {
        sheet.read(at);
        sheet.frame(at, &framed(bus, at, SET_ADDRESS, &[0, 7]));
    }
}

/// Given states: no set address gives such an own address.
fn boards_at_reserved_addresses(sheet: &mut Sheet, bus: Bus) {
    sheet.board(bus, 64, 128, 0);
    for own in [0, 1, 3, 7, 120, 127, 128, 248, 250, 255] {
        title(sheet, &format!("board_given_at_{own}"), bus);
        let mut s = state(70, 6, 3, if bus == Bus::I2c { 5 } else { 0 });
        s.own = Own::Address(own);
        sheet.state(&s);
        sheet.read(own);
        sheet.send(VERSION, &[]);
        for new in [own, own ^ 1, 0, 255] {
            sheet.send(SET_ADDRESS, &[new, 7]);
            sheet.read(own);
        }
        sheet.write(70, &image(3));
        sheet.send(SET_ADDRESS, &[20, 77]);
        sheet.send(SET_ADDRESS, &[20, 7]);
        sheet.read(20);
        sheet.read(own);
        sheet.frame(own, &framed(bus, own, FINALIZE, &[]));
        sheet.finalize();
        sheet.state(&s);
        sheet.general(4);
        sheet.send(VERSION, &[]);
    }
}

/// What is tested before the address: numbers 2 to 5, running, check sum, destination.
fn tests_before(sheet: &mut Sheet, bus: Bus) {
    title(sheet, "set_address_reserved_after_other_tests", bus);
    sheet.board(bus, 32, 64, 0);
    let refused = framed(bus, 8, SET_ADDRESS, &[0, 7]);
    sheet.send(VERSION, &[]);
    sheet.room(31);
    sheet.frame(8, &refused);
    sheet.room(32);
    sheet.frame(8, &with_bad_crc(refused.clone()));
    sheet.frame(16, &framed(bus, 16, SET_ADDRESS, &[0, 7]));
    sheet.read(8);
    sheet.state(&state(65, 0, 0, 0));
    sheet.frame(8, &refused);
    sheet.fresh();
    sheet.send(START, &[]);
    sheet.frame(8, &refused);
    sheet.general(6);
    sheet.frame(8, &refused);
}
