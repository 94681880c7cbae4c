//! Fixed cases: write, commit, finalize.

use super::{image, state, title};
use crate::cases::{most_data, Sheet, BUSES};
use rules::model::*;

pub fn writes(sheet: &mut Sheet) {
    for bus in BUSES {
        ends(sheet, bus);
        empty_writes(sheet, bus);
        order(sheet, bus);
        commits(sheet, bus);
        finalizes(sheet, bus);
        given_uploads(sheet, bus);
    }
}

fn ends(sheet: &mut Sheet, bus: Bus) {
    title(sheet, "write_ending_at_S", bus);
    sheet.board(bus, 256, 128, 64);
    sheet.write(0, &image(128));
    sheet.finalize();
    title(sheet, "write_ending_at_S_plus_1", bus);
    sheet.write(0, &image(129));
    sheet.finalize();
    title(sheet, "write_ending_at_S_in_pieces", bus);
    sheet.board(bus, 256, 128, 64);
    sheet.write(0, &image(100));
    sheet.write(100, &[5; 29]);
    sheet.write(100, &[5; 28]);
    sheet.write(128, &[5]);
    sheet.finalize();
    title(sheet, "write_past_S_takes_nothing", bus);
    sheet.board(bus, 256, 64, 64);
    sheet.write(0, &[1; 10]);
    sheet.write(0, &[2; 65]);
    sheet.write(10, &[3; 55]);
    sheet.write(10, &[3; 200]);
    sheet.finalize();
    sheet.write(10, &[3; 54]);
    sheet.finalize();
    title(sheet, "write_ending_at_largest_S", bus);
    sheet.board(bus, 256, 65_472, 0);
    for next in [65_408, 65_440, 65_471, 65_472] {
        let left = 65_472 - next;
        for length in [left + 1, left] {
            sheet.state(&state(next, next % 64, 0, 0));
            sheet.write(u64::from(next), &vec![0x77; length as usize]);
            sheet.finalize();
        }
    }
    sheet.write(65_535, &[1]);
    sheet.write(65_535, &[]);
}

fn empty_writes(sheet: &mut Sheet, bus: Bus) {
    title(sheet, "empty_write_at_next_S", bus);
    sheet.board(bus, 256, 128, 0);
    sheet.write(0, &image(128));
    sheet.write(128, &[]);
    sheet.write(129, &[]);
    sheet.finalize();
    title(sheet, "empty_write_at_next", bus);
    sheet.write(0, &image(20));
    sheet.write(20, &[]);
    sheet.write(19, &[]);
    sheet.write(21, &[]);
    sheet.finalize();
    title(sheet, "empty_write_at_0_starts_over", bus);
    sheet.write(0, &image(100));
    sheet.write(0, &[]);
    sheet.finalize();
    sheet.write(100, &[]);
    sheet.write(0, &[]);
    title(sheet, "empty_write_on_the_fresh_board", bus);
    sheet.fresh();
    sheet.write(0, &[]);
    sheet.write(1, &[]);
    sheet.finalize();
}

fn order(sheet: &mut Sheet, bus: Bus) {
    title(sheet, "write_out_of_order", bus);
    sheet.board(bus, 64, 1024, 64);
    sheet.write(1, &[1]);
    sheet.write(256, &[1]);
    sheet.upload(&image(300), 50);
    for at in [1, 43, 250, 299, 301, 44, 256, 1023, 1024, 11_009, 65_535] {
        sheet.write(at, &[0xee; 3]);
    }
    sheet.write(300, &[0xdd; 3]);
    sheet.write(300, &[0xdd; 3]);
    sheet.finalize();
    sheet.write(300, &[0xdd; 3]);
    sheet.write(303, &[0xcc; 3]);
    sheet.finalize();
    title(sheet, "write_with_too_few_arguments", bus);
    sheet.send(WRITE, &[]);
    sheet.send(WRITE, &[0]);
    sheet.send(WRITE, &[0, 0]);
    title(sheet, "big_endian_address", bus);
    sheet.state(&state(258, 2, 0, 0));
    sheet.write(513, &[1]);
    sheet.write(258, &[1]);
    sheet.finalize();
}

fn commits(sheet: &mut Sheet, bus: Bus) {
    title(sheet, "commit_at_page_end", bus);
    sheet.board(bus, 256, 256, 64);
    sheet.write(0, &image(63));
    sheet.write(63, &[1]);
    sheet.write(64, &image(64));
    sheet.write(128, &image(65));
    sheet.finalize();
    title(sheet, "commit_that_changes_nothing", bus);
    sheet.board(bus, 256, 256, 64);
    sheet.write(0, &[0xff; 200]);
    sheet.finalize();
    title(sheet, "commit_of_some_changed_pages", bus);
    let mut pages = vec![0xff; 200];
    pages[64] = 0;
    sheet.write(0, &pages);
    sheet.finalize();
    pages[64] = 0xff;
    pages[63] = 1;
    pages[199] = 1;
    sheet.write(0, &pages);
    sheet.finalize();
    title(sheet, "last_page_keeps_the_bytes_after_the_upload", bus);
    sheet.board(bus, 256, 256, 64);
    sheet.flash(384, 1, 0);
    sheet.write(0, &[0xff; 70]);
    sheet.finalize();
    sheet.read_flash(64, 64);
    title(sheet, "bytes_join_their_page_after_a_finalize", bus);
    sheet.write(70, &[0xaa; 3]);
    sheet.finalize();
    sheet.write(73, &[0xbb; 60]);
    sheet.finalize();
    sheet.write(133, &[0xcc; 1]);
    sheet.finalize();
    sheet.read_back(256, 100);
    title(sheet, "many_pages_in_one_frame", bus);
    sheet.board(bus, 256, 256, 0);
    sheet.write(0, &image(10));
    sheet.write(10, &image(most_data(bus, 256).min(240)));
    sheet.finalize();
}

fn finalizes(sheet: &mut Sheet, bus: Bus) {
    title(sheet, "finalize_on_the_fresh_board", bus);
    sheet.board(bus, 256, 256, 64);
    sheet.finalize();
    title(sheet, "finalize_twice", bus);
    sheet.write(0, &image(70));
    sheet.finalize();
    sheet.finalize();
    sheet.finalize();
    title(sheet, "finalize_at_a_page_end", bus);
    sheet.write(0, &image(128));
    sheet.finalize();
    sheet.finalize();
    title(sheet, "finalize_after_each_byte", bus);
    sheet.board(bus, 256, 256, 64);
    for k in 0..70 {
        sheet.write(k, &[k as u8]);
        sheet.finalize();
    }
    title(sheet, "count_starts_over_at_0_only", bus);
    sheet.write(70, &[1]);
    sheet.finalize();
    sheet.write(0, &[7]);
    sheet.finalize();
    sheet.write(0, &[8, 8]);
    sheet.write(2, &[8, 8]);
    sheet.finalize();
}

/// Uploads that go on from given states.
fn given_uploads(sheet: &mut Sheet, bus: Bus) {
    title(sheet, "given_state_fewer_waiting_bytes_than_in_page", bus);
    sheet.board(bus, 128, 256, 64);
    for (next, w, count) in [(100, 10, 5), (100, 36, 5), (100, 0, 5), (127, 1, 126), (64, 0, 64), (192, 0, 2), (255, 63, 192)] {
        sheet.state(&state(next, w, count, 0));
        sheet.write(u64::from(next), &[0x99]);
        sheet.finalize();
    }
    title(sheet, "given_state_high_count", bus);
    sheet.board(bus, 128, 65_472, 0);
    for count in [255, 256, 257, 32_767, 65_400] {
        sheet.state(&state(65_410, 2, count, 0));
        sheet.finalize();
        sheet.write(65_410, &[0x12; 62]);
        sheet.finalize();
    }
    title(sheet, "given_state_refused_and_other_commands_keep_waiting_bytes", bus);
    sheet.board(bus, 128, 256, 64);
    sheet.state(&state(70, 6, 1, 0));
    sheet.write(71, &[1]);
    sheet.send(VERSION, &[]);
    sheet.send(SET_ADDRESS, &[20, 0]);
    sheet.read_flash(0, 100);
    sheet.finalize();
}
