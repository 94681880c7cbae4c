//! Fixed cases of the master: encoder, decoder, two reads, version rule.

use crate::cases::{most_data, most_results, reply, Sheet, BUSES};
use rules::check::framed;
use rules::model::*;

const MOST: u32 = 4_294_967_295;

// ---- encoder

pub fn encoder(sheet: &mut Sheet) {
    for bus in BUSES {
        every_code(sheet, bus);
        refusal_2(sheet, bus);
        refusal_7(sheet, bus);
        reserved_addresses(sheet, bus);
        refusal_6(sheet, bus);
        encoder_order(sheet, bus);
    }
}

fn every_code(sheet: &mut Sheet, bus: Bus) {
    sheet.note("encode_every_code");
    sheet.room(256);
    for code in 0..=255u32 {
        let a = if code == 1 { 9 } else { 0 };
        sheet.encode(bus, 64, code, 8, a, 0, &[]);
    }
    for m in [32, 256] {
        for code in [260, 262] {
            for to in [0, 8, 300, MOST] {
                sheet.encode(bus, m, code, to, 0, 0, &[]);
            }
        }
    }
    sheet.note("encode_arguments_in_their_places");
    sheet.encode(bus, 64, 1, 9, 17, 34, &[]);
    sheet.encode(bus, 64, 6, 10, 0x1234, 0, &[1, 2, 3]);
    sheet.encode(bus, 64, 8, 11, 0xabcd, 7, &[]);
}

fn refusal_2(sheet: &mut Sheet, bus: Bus) {
    sheet.note("encode_refusal_2");
    for m in [0, 31, 32, 33, 255, 256, 257, MOST] {
        for code in [0, 5, 260, 262] {
            sheet.encode(bus, m, code, 8, 0, 0, &[]);
        }
        sheet.encode(bus, m, 1, 8, 9, 7, &[]);
        sheet.encode(bus, m, 6, 8, 0, 0, &[1]);
        sheet.encode(bus, m, 8, 8, 0, 1, &[]);
    }
}

fn refusal_7(sheet: &mut Sheet, bus: Bus) {
    sheet.note("encode_refusal_7_destination");
    sheet.room(256);
    for to in [0, 1, 8, 126, 127, 128, 254, 255, 256, 264, 65_536, MOST] {
        sheet.encode(bus, 64, 0, to, 0, 0, &[]);
        sheet.encode(bus, 64, 6, to, 0, 0, &[1]);
    }
    sheet.note("encode_refusal_7_new_address_and_type");
    for a in [256, 257, 264, 65_536 + 8, MOST] {
        sheet.encode(bus, 64, 1, 8, a, 7, &[]);
    }
    for b in [0, 1, 254, 255, 256, 257, 65_536, MOST] {
        sheet.encode(bus, 64, 1, 8, 9, b, &[]);
    }
    sheet.note("encode_refusal_7_flash_address");
    for a in [0, 255, 256, 65_472, 65_534, 65_535, 65_536, 65_537, MOST] {
        sheet.encode(bus, 64, 6, 8, a, 0, &[1]);
        sheet.encode(bus, 64, 8, 8, a, 1, &[]);
    }
    sheet.note("encode_refusal_7_request_over_M");
    for m in [32, 33, 64, 255, 256] {
        let most = most_data(bus, m);
        for length in [0, most - 1, most, most + 1, most + 2, 600] {
            sheet.encode(bus, m, 6, 8, 3, 0, &vec![0x61; length]);
        }
    }
    sheet.note("encode_refusal_7_read_over_a_reply");
    for m in [32, 33, 64, 255, 256] {
        let most = most_results(bus, m) as u32;
        for length in [0, most - 1, most, most + 1, most + 2, 255, 256, 256 + 5, MOST] {
            sheet.encode(bus, m, 8, 8, 3, length, &[]);
        }
    }
}

/// New addresses that are reserved, and destinations, which may be.
fn reserved_addresses(sheet: &mut Sheet, bus: Bus) {
    sheet.note("encode_every_new_address");
    sheet.room(256);
    for a in 0..=255 {
        sheet.encode(bus, 64, 1, 8, a, 7, &[]);
    }
    sheet.note("encode_reserved_new_address_with_types");
    for a in [0, 3, 120, 127, 128, 136, 248, 255] {
        for b in [0, 255, 256] {
            sheet.encode(bus, 64, 1, 8, a, b, &[]);
        }
    }
    sheet.note("encode_every_destination");
    for to in 0..=255 {
        sheet.encode(bus, 64, 0, to, 0, 0, &[]);
    }
    for to in [0, 3, 7, 120, 127, 128, 248, 250, 255] {
        sheet.encode(bus, 64, 1, to, 20, 7, &[]);
        sheet.encode(bus, 64, 1, to, 255, 7, &[]);
        sheet.encode(bus, 64, 6, to, 0, 0, &[1, 2]);
        sheet.encode(bus, 64, 8, to, 0, 5, &[]);
    }
    sheet.note("encode_flash_address_is_no_bus_address");
    for a in [0, 7, 120, 248, 255] {
        sheet.encode(bus, 64, 6, 8, a, 0, &[1, 2]);
        sheet.encode(bus, 64, 8, 8, a, 5, &[]);
    }
    sheet.note("encode_order_2_7_6_with_reserved_new_address");
    for faults in 0..8u32 {
        let m = if faults & 1 != 0 { 31 } else { 32 };
        let a = if faults & 2 != 0 { 0 } else { 9 };
        for room in if faults & 4 != 0 { [0, 3] } else { [6, 64] } {
            sheet.room(room);
            sheet.encode(bus, m, 1, 8, a, 7, &[]);
        }
    }
    sheet.room(256);
}

fn refusal_6(sheet: &mut Sheet, bus: Bus) {
    sheet.note("encode_refusal_6");
    let extra = if bus == Bus::I2c { 0 } else { 2 };
    for (code, a, b, data, own) in [
        (0, 0, 0, vec![], 2 + extra),
        (1, 9, 7, vec![], 4 + extra),
        (6, 0, 0, vec![5; 20], 24 + extra),
        (8, 0, 9, vec![], 5 + extra),
        (260, 0, 0, vec![], 1 + extra * 3 / 2),
        (262, 0, 0, vec![], 1 + extra * 3 / 2),
    ] {
        for room in [0, own - 1, own, own + 1, 300] {
            sheet.room(room);
            sheet.encode(bus, 64, code, 8, a, b, &data);
        }
    }
    sheet.room(256);
}

fn encoder_order(sheet: &mut Sheet, bus: Bus) {
    sheet.note("encode_order_2_7_6");
    for faults in 0..8u32 {
        let m = if faults & 1 != 0 { 31 } else { 32 };
        let to = if faults & 2 != 0 { 0 } else { 8 };
        sheet.room(if faults & 4 != 0 { 0 } else { 64 });
        sheet.encode(bus, m, 0, to, 0, 0, &[]);
        sheet.encode(bus, m, 262, to, 0, 0, &[]);
        sheet.encode(bus, m, 2, 8, 0, 0, &[]);
    }
    sheet.room(256);
}

// ---- decoder

/// Commands with the least number of results that an OK needs.
const FIXED: [(u32, u32); 10] =
    [(0, 2), (1, 0), (3, 5), (4, 0), (5, 0), (6, 0), (7, 2), (8, 4), (9, 1), (12, 2)];

pub fn decoder(sheet: &mut Sheet) {
    for bus in BUSES {
        codes(sheet, bus);
        lengths(sheet, bus);
        sums_and_addresses(sheet, bus);
        statuses(sheet, bus);
        fixed_parts(sheet, bus);
        decoder_order(sheet, bus);
        reads(sheet, bus);
    }
}

fn codes(sheet: &mut Sheet, bus: Bus) {
    sheet.note("decode_every_code");
    for code in 0..=255u32 {
        sheet.decode(bus, code, 8, 1, &reply(bus, 8, 0, &[1, 2, 3, 4, 5]));
    }
    for code in [2, 10, 11, 13, 14, 15, 255] {
        sheet.decode(bus, code, 8, 0, &[]);
    }
}

fn lengths(sheet: &mut Sheet, bus: Bus) {
    sheet.note("decode_refusal_8_and_11");
    let whole = reply(bus, 8, 0, &[2, 2]);
    for length in 0..=whole.len() {
        sheet.decode(bus, 0, 8, 0, &whole[..length]);
    }
    let short = reply(bus, 8, 5, &[]);
    for length in 0..=short.len() {
        sheet.decode(bus, 6, 8, 0, &short[..length]);
    }
    for extra in [1, 2, 10, 300] {
        let mut longer = whole.clone();
        longer.resize(whole.len() + extra, 0);
        sheet.decode(bus, 0, 8, 0, &longer);
    }
    for wrong in [0, 1, 3, 4, 254, 255] {
        let mut changed = whole.clone();
        changed[if bus == Bus::I2c { 1 } else { 2 }] = wrong;
        sheet.decode(bus, 0, 8, 0, &changed);
    }
    for length in [250, 251, 253, 255] {
        sheet.decode(bus, 8, 8, length, &reply(bus, 8, 0, &vec![9; length as usize]));
    }
}

fn sums_and_addresses(sheet: &mut Sheet, bus: Bus) {
    sheet.note("decode_refusal_9_damaged_at_every_bit");
    let whole = reply(bus, 8, 0, &[0x21, 0x22]);
    for at in 0..whole.len() {
        for bit in 0..8 {
            let mut changed = whole.clone();
            changed[at] ^= 1 << bit;
            sheet.decode(bus, 7, 8, 0, &changed);
        }
    }
    let mut swapped = whole.clone();
    let end = swapped.len();
    swapped.swap(end - 1, end - 2);
    sheet.decode(bus, 7, 8, 0, &swapped);
    sheet.note("decode_refusal_10");
    for from in [0, 7, 8, 9, 136, 255] {
        for address in [0, 8, 136] {
            sheet.decode(bus, 7, address, 0, &reply(bus, from, 0, &[0, 1]));
        }
    }
}

fn statuses(sheet: &mut Sheet, bus: Bus) {
    sheet.note("decode_refusal_12_every_status");
    for status in 0..=255u8 {
        sheet.decode(bus, 1, 8, 0, &reply(bus, 8, status, &[]));
    }
    for status in 0..8u8 {
        sheet.decode(bus, 3, 8, 0, &reply(bus, 8, status, &[1]));
        sheet.decode(bus, 3, 8, 0, &reply(bus, 8, status, &[1, 2, 3, 4, 5, 6]));
    }
}

fn fixed_parts(sheet: &mut Sheet, bus: Bus) {
    sheet.note("decode_refusal_13_fixed_parts");
    for (code, fixed) in FIXED {
        for length in 0..8u32 {
            let results: Vec<u8> = (0..length as u8).collect();
            sheet.decode(bus, code, 8, 4, &reply(bus, 8, 0, &results));
            if length + 1 == fixed {
                sheet.decode(bus, code, 8, 4, &reply(bus, 8, 1, &results));
            }
        }
    }
    for asked in [0, 1, 29, 30, 31, 255, 256, 286, 65_536, MOST] {
        sheet.decode(bus, 8, 8, asked, &reply(bus, 8, 0, &[3; 30]));
        sheet.decode(bus, 8, 8, asked, &reply(bus, 8, 5, &[]));
    }
}

/// A reply with every fault of a choice; the first in order is given.
fn decoder_order(sheet: &mut Sheet, bus: Bus) {
    sheet.note("decode_order_7_8_11_9_10_12_13");
    for faults in 0..64u32 {
        let code = if faults & 1 != 0 { 2 } else { 0 };
        let from = if faults & 8 != 0 { 9 } else { 8 };
        let status = if faults & 16 != 0 { 6 } else { 0 };
        let results: &[u8] = if faults & 32 != 0 { &[1] } else { &[1, 2] };
        let mut bytes = reply(bus, from, status, results);
        if faults & 4 != 0 {
            let end = bytes.len() - 1;
            bytes[end] ^= 1;
        }
        if faults & 2 != 0 {
            bytes.pop();
        }
        sheet.decode(bus, code, 8, 0, &bytes);
    }
    sheet.decode(bus, 0, 8, 0, &[0xff; 2]);
    sheet.decode(bus, 0, 8, 0, &[0xff; 4]);
}

/// Replies as a board makes them.
fn reads(sheet: &mut Sheet, bus: Bus) {
    sheet.note("decode_board_replies");
    sheet.board(bus, 64, 128, 0);
    let calls: [(u8, &[u8]); 6] =
        [(0, &[]), (3, &[]), (4, &[]), (9, &[]), (8, &[0, 0, 9]), (6, &[0, 0, 1, 2])];
    for (code, args) in calls {
        let frame = framed(bus, 8, code, args);
        sheet.frame(8, &frame);
        let made = sheet.made();
        let number = if bus == Bus::I2c { 0 } else { 1 };
        sheet.line(&format!("D {number} {code} 8 9 {made}"));
    }
}

// ---- two reads

pub fn two_reads(sheet: &mut Sheet) {
    sheet.note("two_reads");
    let good = reply(Bus::I2c, 0, 0, &[1, 2]);
    let other = reply(Bus::I2c, 0, 0, &[3, 4, 5]);
    let refused = reply(Bus::I2c, 0, 5, &[]);
    let failed = reply(Bus::I2c, 0, 1, &[9]);
    let few = reply(Bus::I2c, 0, 0, &[7]);
    let high = reply(Bus::I2c, 0, 6, &[7, 7]);
    let mut damaged = good.clone();
    damaged[2] ^= 4;
    let mut longer = other.clone();
    longer.extend([0xee; 5]);
    let choices = [good, other, refused, failed, few, high, damaged, longer, vec![], vec![0], vec![0, 0]];
    for first in &choices {
        for second in &choices {
            sheet.two_reads(7, 0, first, second);
        }
    }
    for code in [2, 14, 15, 255, 0, 5, 3] {
        sheet.two_reads(code, 0, &choices[0], &choices[1]);
    }
    for asked in 0..5 {
        sheet.two_reads(8, asked, &choices[0], &choices[1]);
    }
    sheet.two_reads(8, 257, &choices[0], &choices[1]);
}

// ---- version rule

pub fn versions(sheet: &mut Sheet) {
    sheet.note("version_rule");
    for major in [0, 1, 2, 3, 4, 10, 127, 128, 254, 255] {
        for minor in [0, 1, 2, 3, 4, 127, 255] {
            sheet.version(major, minor);
        }
    }
}
