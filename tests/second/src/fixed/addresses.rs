//! Fixed cases: heard addresses, set address, general calls, running.

use super::{busy_state, image, state, title, with_bad_crc};
use crate::cases::{Sheet, BUSES};
use rules::check::{framed, general_frame};
use rules::model::*;

pub fn addresses(sheet: &mut Sheet) {
    for bus in BUSES {
        heard_addresses(sheet, bus);
        set_address(sheet, bus);
    }
}

fn heard_addresses(sheet: &mut Sheet, bus: Bus) {
    title(sheet, "default_range_every_address", bus);
    sheet.board(bus, 32, 64, 0);
    for address in 0..=255u8 {
        sheet.frame(address, &framed(bus, address, VERSION, &[]));
    }
    for address in [0, 1, 7, 8, 9, 14, 15, 16, 127, 128, 136, 255] {
        sheet.read(address);
    }
    for own in [0, 1, 7, 8, 9, 127, 128, 137, 200, 255] {
        title(sheet, &format!("own_address_{own}"), bus);
        let mut s = state(0, 0, 0, if bus == Bus::I2c { 4 } else { 0 });
        s.own = Own::Address(own);
        for address in [0, 1, 7, 8, 9, 15, 127, 128, 136, 137, 200, 255] {
            sheet.state(&s);
            sheet.read(address);
            sheet.frame(address, &framed(bus, address, VERSION, &[]));
        }
        sheet.general(4);
    }
    title(sheet, "rs485_ignores_the_separate_address", bus);
    sheet.fresh();
    for address in [0, 8, 100, 255] {
        sheet.frame(address, &framed(bus, 8, VERSION, &[]));
        sheet.frame(address, &framed(bus, 100, VERSION, &[]));
        sheet.frame(address, &general_frame(bus, 4));
    }
}

/// Around the edges of the reserved addresses of both buses, and some between.
const NEW_ADDRESSES: [u8; 23] =
    [0, 1, 7, 8, 9, 15, 16, 64, 119, 120, 126, 127, 128, 129, 135, 136, 137, 200, 246, 247, 248, 254, 255];

fn set_address(sheet: &mut Sheet, bus: Bus) {
    title(sheet, "set_address_then_both_addresses", bus);
    sheet.board(bus, 32, 128, 0);
    sheet.write(0, &image(70)[..26]);
    for address in NEW_ADDRESSES {
        sheet.frame(8, &framed(bus, 8, SET_ADDRESS, &[address, 7]));
        for at in [address, address & 0x7f, 8] {
            sheet.read(at);
        }
        for at in [8, address, address & 0x7f] {
            sheet.frame(at, &framed(bus, at, REVISION, &[]));
        }
        sheet.general(4);
    }
    title(sheet, "set_address_hardware_types", bus);
    for hardware in [0, 1, 6, 7, 8, 255] {
        sheet.send(VERSION, &[]);
        sheet.send(SET_ADDRESS, &[12, hardware]);
        sheet.read(12);
        sheet.general(4);
    }
    title(sheet, "set_address_lengths", bus);
    for length in 0..5 {
        sheet.send(SET_ADDRESS, &[12, 9, 7, 7, 7][..length]);
        sheet.read(8);
    }
    title(sheet, "set_address_9_then_others", bus);
    sheet.send(SET_ADDRESS, &[9, 0]);
    for address in 7..17 {
        sheet.frame(address, &framed(bus, address, VERSION, &[]));
    }
    sheet.send(SET_ADDRESS, &[10, 7]);
    sheet.frame(9, &framed(bus, 9, VERSION, &[]));
    sheet.finalize();
}

pub fn general_calls(sheet: &mut Sheet) {
    for bus in BUSES {
        every_general_call(sheet, bus);
        general_calls_amid_upload(sheet, bus);
        while_running(sheet, bus);
    }
}

fn every_general_call(sheet: &mut Sheet, bus: Bus) {
    title(sheet, "every_general_call_code", bus);
    sheet.board(bus, 32, 128, 0);
    for code in 0..=255u8 {
        let frame = match bus {
            Bus::I2c => vec![code],
            Bus::Rs485 => framed(bus, 0, code, &[]),
        };
        if matches!(code, 0x03..=0x07 | 0x43..=0x47) {
            sheet.state(&busy_state(bus, false));
        }
        sheet.frame(0, &frame);
    }
    title(sheet, "general_calls_not_in_exact_form", bus);
    for code in [0x04, 0x06, 0x44, 0x46] {
        let frames = [
            (0, framed(bus, 0, code, &[])),
            (0, framed(bus, 0, code, &[0])),
            (0, framed(bus, 0, code, &[0, 0])),
            (0, with_bad_crc(framed(bus, 0, code, &[]))),
            (0, vec![code, 0]),
            (0, vec![0, code]),
            (9, vec![code]),
            (20, vec![code]),
            (128, vec![code]),
            (9, framed(bus, 9, code, &[])),
        ];
        for (address, frame) in frames {
            sheet.state(&busy_state(bus, false));
            sheet.frame(address, &frame);
        }
    }
    title(sheet, "commands_to_address_0", bus);
    for code in 0..15 {
        sheet.frame(0, &framed(bus, 0, code, &[0, 0][..if code == 6 { 2 } else { 0 }]));
    }
    sheet.frame(0, &[]);
}

fn general_calls_amid_upload(sheet: &mut Sheet, bus: Bus) {
    title(sheet, "reset_address_keeps_the_upload", bus);
    sheet.board(bus, 64, 128, 64);
    sheet.upload(&image(90), 50);
    sheet.send(SET_ADDRESS, &[33, 0]);
    sheet.general(4);
    sheet.read(8);
    sheet.write(90, &[1, 2, 3]);
    sheet.finalize();
    title(sheet, "reset_drops_the_upload", bus);
    sheet.upload(&image(40), 20);
    sheet.send(SET_ADDRESS, &[33, 0]);
    sheet.general(6);
    sheet.read(8);
    sheet.write(40, &[1, 2, 3]);
    sheet.finalize();
    sheet.read_flash(0, 50);
    sheet.general(6);
    sheet.general(6);
    title(sheet, "general_calls_on_given_states", bus);
    for code in [4, 6] {
        for running in [false, true] {
            sheet.state(&busy_state(bus, running));
            sheet.general(code);
        }
    }
}

fn while_running(sheet: &mut Sheet, bus: Bus) {
    title(sheet, "start_drops_waiting_bytes", bus);
    sheet.board(bus, 64, 128, 64);
    sheet.upload(&image(75), 40);
    sheet.send(START, &[]);
    title(sheet, "running_hears_only_reset", bus);
    for code in 0..16 {
        let args: &[u8] = match code {
            SET_ADDRESS => &[9, 7],
            WRITE | READ => &[0, 0, 1],
            _ => &[],
        };
        sheet.frame(8, &framed(bus, 8, code, args));
        sheet.read(8);
    }
    sheet.frame(8, &[1]);
    sheet.frame(8, &[0; 70]);
    sheet.frame(8, &[0, 0]);
    sheet.general(4);
    sheet.frame(0, &[6, 0]);
    sheet.frame(0, &with_bad_crc(general_frame(bus, 6)));
    sheet.general(6);
    sheet.finalize();
    title(sheet, "running_given_state_with_waiting_bytes_and_reply", bus);
    for code in [VERSION, START, FINALIZE] {
        sheet.state(&busy_state(bus, true));
        sheet.read(9);
        sheet.frame(9, &framed(bus, 9, code, &[]));
        sheet.read(9);
    }
    sheet.general(6);
    title(sheet, "start_with_arguments_is_refused", bus);
    sheet.write(0, &[1, 2, 3]);
    sheet.send(START, &[0]);
    sheet.finalize();
    title(sheet, "start_twice_with_reset_between", bus);
    sheet.write(0, &[9, 9, 9]);
    sheet.send(START, &[]);
    sheet.send(START, &[]);
    sheet.general(6);
    sheet.send(START, &[]);
    sheet.general(6);
    sheet.read_flash(0, 3);
}
