//! Fixed cases: frame lengths, damaged frames, the last reply.

use super::{image, title, with_bad_crc};
use crate::cases::{most_data, Sheet, BUSES};
use rules::check::{framed, general_frame, write_frame};
use rules::model::*;

const SERVED_PLAIN: [u8; 7] = [VERSION, HARDWARE_INFO, SERIAL, FINALIZE, REVISION, MAX_PACKET, START];

pub fn frames(sheet: &mut Sheet) {
    for bus in BUSES {
        longest_frames(sheet, bus);
        damaged_frames(sheet, bus);
        cut_frames(sheet, bus);
        last_reply_after_errors(sheet, bus);
        other_bus_frames(sheet, bus);
    }
}

fn longest_frames(sheet: &mut Sheet, bus: Bus) {
    for m in [32, 33, 64, 129, 255, 256] {
        title(sheet, &format!("frame_of_M_and_M_plus_1 M={m}"), bus);
        sheet.board(bus, m, 512, 0);
        let most = most_data(bus, m);
        for length in [most - 1, most, most + 1] {
            let frame = write_frame(bus, 8, 0, &image(length));
            sheet.frame(8, &frame);
            sheet.frame(8, &with_bad_crc(frame));
            sheet.read(8);
        }
        for code in [VERSION, SET_ADDRESS, START, FINALIZE, READ, 0x02, 0x0f] {
            for length in [most + 2, most + 3] {
                sheet.frame(8, &framed(bus, 8, code, &vec![7; length]));
            }
        }
        for length in [300, 511, 512, 600] {
            let mut frame = image(length - 2);
            frame[0] = 8;
            sheet.frame(8, &framed(bus, 8, WRITE, &frame[..length - 4]));
            sheet.frame(9, &frame);
        }
        sheet.finalize();
    }
}

fn damaged_frames(sheet: &mut Sheet, bus: Bus) {
    title(sheet, "damaged_at_every_bit", bus);
    sheet.board(bus, 64, 128, 64);
    sheet.write(0, &image(10));
    let good = [
        write_frame(bus, 8, 10, &[0xaa, 0xbb]),
        framed(bus, 8, FINALIZE, &[]),
        framed(bus, 8, VERSION, &[]),
        framed(bus, 8, READ, &[0, 1, 2]),
        framed(bus, 8, SET_ADDRESS, &[9, 7]),
        framed(bus, 8, START, &[]),
        general_frame(bus, 6),
        general_frame(bus, 4),
    ];
    for (k, frame) in good.iter().enumerate() {
        let address = if k < 6 { 8 } else { 0 };
        for at in 0..frame.len() {
            for bit in 0..8 {
                let mut damaged = frame.clone();
                damaged[at] ^= 1 << bit;
                sheet.frame(address, &damaged);
            }
        }
    }
    title(sheet, "damaged_check_sum_bytes", bus);
    for wrong in 0..=255u8 {
        let mut frame = framed(bus, 8, REVISION, &[]);
        if let Some(last) = frame.last_mut() {
            *last = wrong;
        }
        sheet.frame(8, &frame);
    }
    title(sheet, "check_sum_bytes_swapped", bus);
    let mut frame = framed(bus, 8, VERSION, &[]);
    let end = frame.len();
    frame.swap(end - 1, end - 2);
    sheet.frame(8, &frame);
    sheet.finalize();
}

fn cut_frames(sheet: &mut Sheet, bus: Bus) {
    title(sheet, "cut_and_lengthened_frames", bus);
    sheet.board(bus, 64, 128, 64);
    sheet.write(0, &image(5));
    let whole = write_frame(bus, 8, 5, &[1, 2, 3]);
    for length in 0..whole.len() {
        sheet.frame(8, &whole[..length]);
    }
    let mut longer = whole.clone();
    longer.push(0);
    sheet.frame(8, &longer);
    sheet.frame(8, &whole[1..]);
    title(sheet, "shortest_frames", bus);
    for length in 0..5usize {
        let body = [8, VERSION, 0, 0, 0];
        for address in [0, 8, 20, 128] {
            sheet.frame(address, &body[..length]);
        }
    }
    for body in [vec![], vec![8u8], vec![VERSION], vec![0x04], vec![0x06], vec![0]] {
        let sealed = match bus {
            Bus::I2c => seal8(&body),
            Bus::Rs485 => seal16(&body),
        };
        for address in [0, 8] {
            sheet.frame(address, &sealed);
        }
    }
}

fn seal8(body: &[u8]) -> Vec<u8> {
    let mut frame = body.to_vec();
    rules::sums::push_crc8(&mut frame);
    frame
}

fn seal16(body: &[u8]) -> Vec<u8> {
    let mut frame = body.to_vec();
    rules::sums::push_crc16(&mut frame);
    frame
}

fn last_reply_after_errors(sheet: &mut Sheet, bus: Bus) {
    title(sheet, "last_reply_after_each_kind_of_write", bus);
    sheet.board(bus, 32, 128, 0);
    let version = framed(bus, 8, VERSION, &[]);
    let others: [(u8, Vec<u8>); 12] = [
        (8, vec![]),
        (8, vec![1]),
        (8, vec![0; 33]),
        (8, with_bad_crc(version.clone())),
        (20, framed(bus, 20, REVISION, &[])),
        (128 + 8, framed(bus, 128 + 8, REVISION, &[])),
        (0, vec![0x05]),
        (0, framed(bus, 0, VERSION, &[])),
        (8, framed(bus, 8, SET_ADDRESS, &[9, 8])),
        (8, framed(bus, 8, 0x0a, &[])),
        (8, framed(bus, 8, REVISION, &[1])),
        (8, write_frame(bus, 8, 3, &[1])),
    ];
    for (address, frame) in others {
        sheet.frame(8, &version);
        sheet.frame(address, &frame);
        sheet.read(8);
        sheet.read(15);
        sheet.read(16);
        sheet.read(0);
    }
}

/// Frames in the other bus's form.
fn other_bus_frames(sheet: &mut Sheet, bus: Bus) {
    title(sheet, "frames_in_the_other_bus_form", bus);
    sheet.board(bus, 64, 128, 0);
    sheet.write(0, &image(5));
    for other in BUSES {
        for code in SERVED_PLAIN {
            if other != bus {
                sheet.frame(8, &framed(other, 8, code, &[]));
            }
        }
        for code in [4, 6] {
            if other != bus {
                sheet.frame(0, &general_frame(other, code));
            }
        }
    }
}
