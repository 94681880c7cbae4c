//! Fixed cases: numbers 2 to 5 of the board at their borders and in their order.

use super::{state, title};
use crate::cases::{Sheet, BUSES};
use rules::check::{framed, plain_profile};
use rules::model::*;

pub fn refusals(sheet: &mut Sheet) {
    for bus in BUSES {
        profile_borders(sheet, bus);
        flash_borders(sheet, bus);
        state_borders(sheet, bus);
        room_borders(sheet, bus);
        refusal_order(sheet, bus);
    }
}

/// One frame and one read under the present profile, flash and state.
fn probe(sheet: &mut Sheet) {
    let frame = framed(sheet.bus(), 8, VERSION, &[]);
    sheet.frame(8, &frame);
    sheet.read(8);
}

fn profile_borders(sheet: &mut Sheet, bus: Bus) {
    title(sheet, "refusal_2_M", bus);
    sheet.board(bus, 256, 128, 64);
    for m in [0, 31, 32, 33, 255, 256, 257, 512, 4_294_967_295] {
        sheet.profile(&plain_profile(bus, m, 128, 64));
        sheet.fresh();
        sheet.room(512);
        probe(sheet);
    }
    title(sheet, "refusal_2_S", bus);
    sheet.flash(131_072, 0, 255);
    for s in [0, 1, 63, 64, 65, 96, 128, 65_471, 65_472, 65_473, 65_535, 65_536, 4_294_967_232] {
        sheet.profile(&plain_profile(bus, 64, s, 0));
        sheet.fresh();
        probe(sheet);
    }
    title(sheet, "refusal_2_O", bus);
    for o in [0, 1, 32, 63, 64, 65, 65_408, 65_471, 65_472, 65_473, 65_536, 4_294_967_232] {
        sheet.profile(&plain_profile(bus, 64, 64, o));
        sheet.fresh();
        probe(sheet);
    }
    title(sheet, "refusal_2_hardware_and_serial", bus);
    sheet.board(bus, 64, 128, 0);
    for hardware in [0, 1, 254, 255] {
        let mut p = plain_profile(bus, 64, 128, 0);
        p.hardware = hardware;
        sheet.profile(&p);
        sheet.send(HARDWARE_INFO, &[]);
        sheet.read(8);
    }
    for length in [0, 1, 15, 16, 17, 40] {
        let mut p = plain_profile(bus, 32, 128, 0);
        p.serial = (1..=length).collect();
        sheet.profile(&p);
        sheet.send(SERIAL, &[]);
        sheet.read(8);
    }
}

fn flash_borders(sheet: &mut Sheet, bus: Bus) {
    title(sheet, "refusal_3_flash_length", bus);
    for (s, o) in [(64, 0), (128, 64), (64, 65_472), (65_472, 0), (65_472, 65_472)] {
        sheet.profile(&plain_profile(bus, 32, s, o));
        sheet.fresh();
        sheet.room(32);
        let need = u64::from(s) + u64::from(o);
        for len in [0, need - 1, need, need + 1] {
            sheet.flash(len, 1, 0);
            probe(sheet);
        }
    }
}

fn state_borders(sheet: &mut Sheet, bus: Bus) {
    const MOST: u32 = 4_294_967_295;
    title(sheet, "refusal_4_next", bus);
    sheet.board(bus, 64, 128, 64);
    for next in [127, 128, 129, 192, 65_472, MOST] {
        sheet.state(&state(next, 0, 0, 0));
        probe(sheet);
    }
    title(sheet, "refusal_4_w", bus);
    for (next, w) in [(0, 0), (0, 1), (63, 63), (63, 64), (64, 0), (64, 1), (70, 6), (70, 7), (127, 63), (128, 1), (5, MOST)] {
        sheet.state(&state(next, w, 0, 0));
        probe(sheet);
        sheet.send(FINALIZE, &[]);
    }
    title(sheet, "refusal_4_count", bus);
    for (next, w, count) in [(0, 0, 1), (70, 6, 64), (70, 6, 65), (70, 0, 70), (70, 0, 71), (128, 0, 128), (128, 0, 129), (3, 3, 0), (3, 3, 1), (70, 6, MOST)] {
        sheet.state(&state(next, w, count, 0));
        probe(sheet);
        sheet.send(FINALIZE, &[]);
    }
    title(sheet, "refusal_4_last_reply", bus);
    for m in [32, 64, 256] {
        sheet.board(bus, m, 128, 64);
        for length in [0, 1, 2, 3, m - 1, m, m + 1, 255, 256, 257, MOST] {
            sheet.state(&state(0, 0, 0, length));
            sheet.read(8);
            probe(sheet);
        }
    }
    title(sheet, "refusal_4_not_cured_by_reset", bus);
    sheet.board(bus, 64, 128, 64);
    sheet.state(&state(129, 0, 0, 0));
    sheet.general(6);
    sheet.general(4);
    sheet.write(0, &[1]);
}

fn room_borders(sheet: &mut Sheet, bus: Bus) {
    title(sheet, "refusal_5_room", bus);
    for m in [32, 100, 256] {
        sheet.board(bus, m, 128, 64);
        for room in [0, m as usize - 1, m as usize, m as usize + 1, 512] {
            sheet.room(room);
            probe(sheet);
        }
        title(sheet, "refusal_5_before_reset_and_start", bus);
        sheet.write(0, &[1, 2, 3]);
        sheet.room(m as usize - 1);
        sheet.general(6);
        sheet.general(4);
        sheet.send(START, &[]);
        sheet.finalize();
        sheet.frame(100, &[1]);
        sheet.read(100);
        sheet.room(m as usize);
        sheet.finalize();
    }
}

/// Every choice of faults at once: the lowest number is given.
fn refusal_order(sheet: &mut Sheet, bus: Bus) {
    title(sheet, "refusal_order_2_3_4_5", bus);
    for faults in 0..16u32 {
        let s = if faults & 1 != 0 { 129 } else { 128 };
        sheet.profile(&plain_profile(bus, 40, s, 64));
        sheet.flash(if faults & 2 != 0 { 191 } else { 256 }, 0, 255);
        sheet.state(&state(if faults & 4 != 0 { 200 } else { 100 }, 0, 0, 0));
        sheet.room(if faults & 8 != 0 { 39 } else { 40 });
        probe(sheet);
        sheet.general(6);
    }
}
