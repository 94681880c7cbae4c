//! Fixed cases: lists of calls and whole uploads.

use super::{image, title, with_bad_crc};
use crate::cases::{most_data, most_results, Sheet, BUSES};
use rules::check::write_frame;
use rules::model::*;

pub fn lists(sheet: &mut Sheet) {
    for bus in BUSES {
        reuploads(sheet, bus);
        whole_upload(sheet, bus);
        interrupted(sheet, bus);
    }
}

fn reuploads(sheet: &mut Sheet, bus: Bus) {
    title(sheet, "same_upload_in_other_pieces", bus);
    sheet.board(bus, 256, 640, 128);
    let bytes = image(333);
    for piece in [250, 1, 64, 63, 65, 100, 7] {
        if piece == 1 {
            sheet.upload(&bytes[..70], piece);
        } else {
            sheet.upload(&bytes, piece);
        }
        sheet.finalize();
    }
    title(sheet, "same_upload_with_finalizes_between", bus);
    sheet.write(0, &bytes[..100]);
    sheet.finalize();
    sheet.write(100, &bytes[100..130]);
    sheet.finalize();
    sheet.write(130, &bytes[130..333]);
    sheet.finalize();
    title(sheet, "shorter_and_longer_upload", bus);
    sheet.upload(&bytes[..90], 50);
    sheet.finalize();
    sheet.upload(&image(400), 123);
    sheet.finalize();
    sheet.read_back(640, 200);
}

/// A whole upload as a master runs it.
fn whole_upload(sheet: &mut Sheet, bus: Bus) {
    title(sheet, "whole_session", bus);
    sheet.board(bus, 100, 320, 64);
    sheet.general(6);
    sheet.send(VERSION, &[]);
    sheet.read(8);
    sheet.send(SET_ADDRESS, &[42, 7]);
    sheet.read(42);
    for code in [HARDWARE_INFO, SERIAL, REVISION, MAX_PACKET, 0x0a, 0x0d] {
        sheet.send(code, &[]);
        sheet.read(42);
    }
    sheet.upload(&image(300), 90);
    sheet.finalize();
    sheet.read(42);
    sheet.read_back(300, 90);
    sheet.send(START, &[]);
    sheet.read(42);
    sheet.general(4);
    sheet.general(6);
    sheet.upload(&image(300), 90);
    sheet.finalize();
    sheet.read(8);
}

/// Errors and general calls between the writes of an upload.
fn interrupted(sheet: &mut Sheet, bus: Bus) {
    title(sheet, "upload_with_errors_between", bus);
    sheet.board(bus, 64, 256, 64);
    let bytes = image(200);
    for (k, data) in bytes.chunks(40).enumerate() {
        let at = k as u64 * 40;
        let own = sheet.own();
        sheet.frame(own, &with_bad_crc(write_frame(bus, own, at, data)));
        sheet.write(at + 1, data);
        sheet.frame(own, &[0; 65]);
        sheet.write(at, data);
        sheet.write(at, data);
        sheet.general(4);
        sheet.send(SET_ADDRESS, &[20 + k as u8, 0]);
        sheet.frame(0, &[5]);
    }
    sheet.finalize();
    sheet.general(6);
    sheet.upload(&bytes, 33);
    sheet.finalize();
    title(sheet, "upload_dropped_by_start_and_reset", bus);
    sheet.write(0, &[0x31; 50]);
    sheet.send(START, &[]);
    sheet.write(50, &[0x31; 50]);
    sheet.finalize();
    sheet.general(6);
    sheet.write(50, &[0x31; 50]);
    sheet.finalize();
    sheet.read_flash(0, 50);
}

pub fn whole_uploads(sheet: &mut Sheet) {
    for bus in BUSES {
        title(sheet, "whole_upload_largest_S", bus);
        sheet.board(bus, 256, 65_472, 64);
        let bytes = image(65_472);
        let piece = most_data(bus, 256);
        sheet.upload(&bytes, piece);
        sheet.finalize();
        title(sheet, "whole_upload_read_back", bus);
        sheet.read_back(65_472, most_results(bus, 256) as u8);
        title(sheet, "whole_upload_again_other_pieces", bus);
        sheet.upload(&bytes, 192);
        sheet.finalize();
        sheet.write(65_472, &[]);
        sheet.write(65_472, &[0]);
    }
    for bus in BUSES {
        title(sheet, "whole_upload_shortest_frames", bus);
        sheet.board(bus, 32, 1024, 65_472);
        sheet.upload(&image(1024), most_data(bus, 32));
        sheet.finalize();
        sheet.read_back(1024, most_results(bus, 32) as u8);
    }
}
