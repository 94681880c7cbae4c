//! Fixed cases: the profile's page (request W8), and states handed over from one page to another.

use super::{image, state, title};
use crate::cases::{most_data, Sheet, BUSES};
use rules::check::{framed, paged_profile};
use rules::model::*;
use rules::pages::WRONG;
use rules::tally::Tally;

pub fn pages(sheet: &mut Sheet) {
    sheet.tally(&Tally::default());
    for bus in BUSES {
        wrong_pages(sheet, bus);
        sizes(sheet, bus);
        states(sheet, bus);
        commits(sheet, bus);
        finalizes(sheet, bus);
        ends(sheet, bus);
        handed_to_64(sheet, bus);
        handed_to_128(sheet, bus);
        handed_and_back(sheet, bus);
    }
    append_random(sheet);
}

/// Lists in which the page changes.
fn append_random(sheet: &mut Sheet) {
    let random = crate::cases::random_with(2208, 3, &PAGES);
    for line in random.cases.lines() {
        sheet.line(line);
    }
}

/// The same board with another page; state and flash go on.
fn under(sheet: &mut Sheet, page: u32) {
    let p = sheet.runner.profile.clone().expect("a board is set");
    sheet.profile(&Profile { page, ..p });
}

/// A write of one byte at 0, which a board that takes it can't hide, counted.
fn counted_write(sheet: &mut Sheet) {
    let frame = framed(sheet.bus(), 8, WRITE, &[0, 0, 0x5a]);
    sheet.counted(8, &frame);
}

/// S and O are multiples of every wrong page that divides 768.
fn wrong_pages(sheet: &mut Sheet, bus: Bus) {
    title(sheet, "refusal_2_page", bus);
    sheet.paged_board(bus, 64, 64, 768, 768);
    sheet.send(VERSION, &[]);
    for page in WRONG.into_iter().chain(PAGES) {
        under(sheet, page);
        counted_write(sheet);
        if bus == Bus::I2c {
            sheet.read(8);
        } else {
            sheet.finalize();
        }
    }
    title(sheet, "refusal_2_page_before_3_4_5", bus);
    sheet.paged_board(bus, 64, 96, 768, 768);
    sheet.flash(1535, 0, 255);
    counted_write(sheet);
    sheet.state(&state(769, 0, 0, 0));
    sheet.room(63);
    sheet.general(6);
    sheet.read(8);
    under(sheet, 128);
    sheet.read(8);
}

fn sizes(sheet: &mut Sheet, bus: Bus) {
    title(sheet, "refusal_2_S_of_128", bus);
    sheet.paged_board(bus, 32, 128, 128, 0);
    sheet.flash(131_072, 0, 255);
    for s in [0, 64, 127, 128, 192, 65_344, 65_408, 65_472, 65_536, 4_294_967_168] {
        sheet.profile(&paged_profile(bus, 32, 128, s, 0));
        sheet.send(HARDWARE_INFO, &[]);
    }
    title(sheet, "refusal_2_O_of_128", bus);
    for o in [0, 64, 128, 192, 65_344, 65_408, 65_472, 65_536, 4_294_967_168] {
        sheet.profile(&paged_profile(bus, 32, 128, 128, o));
        sheet.send(VERSION, &[]);
    }
    title(sheet, "refusal_3_flash_length_of_128", bus);
    for (s, o) in [(128, 65_408), (65_408, 65_408)] {
        sheet.profile(&paged_profile(bus, 32, 128, s, o));
        for len in [s + o - 1, s + o] {
            sheet.flash(u64::from(len), 1, 0);
            sheet.send(REVISION, &[]);
        }
    }
}

/// Each given state finalized under 128 and, with the same flash, under 64.
fn states(sheet: &mut Sheet, bus: Bus) {
    title(sheet, "refusal_4_w_under_128_and_64", bus);
    sheet.paged_board(bus, 64, 128, 256, 128);
    let near = [(63, 63), (64, 64), (64, 65), (65, 65), (100, 36), (100, 37), (100, 100), (100, 101), (127, 127), (127, 128)];
    let far = [(128, 0), (128, 1), (191, 63), (192, 64), (192, 65), (255, 127), (255, 128), (256, 0), (256, 1)];
    for (next, w) in near.into_iter().chain(far) {
        for page in [128, 64] {
            under(sheet, page);
            sheet.flash(448, 1, 3);
            sheet.state(&state(next, w, 0, 0));
            sheet.finalize();
        }
    }
    title(sheet, "refusal_4_count_under_128", bus);
    under(sheet, 128);
    for (next, w, count) in [(100, 64, 36), (100, 64, 37), (127, 127, 0), (127, 127, 1), (255, 127, 128), (255, 127, 129)] {
        sheet.state(&state(next, w, count, 0));
        sheet.finalize();
    }
}

fn commits(sheet: &mut Sheet, bus: Bus) {
    title(sheet, "commit_at_128_not_at_64", bus);
    sheet.paged_board(bus, 256, 128, 512, 128);
    let bytes = image(385);
    sheet.write(0, &bytes[..63]);
    sheet.write(63, &bytes[63..64]);
    sheet.write(64, &bytes[64..127]);
    sheet.read_flash(0, 128);
    sheet.write(127, &bytes[127..128]);
    sheet.read_flash(0, 130);
    sheet.write(128, &bytes[128..256]);
    sheet.write(256, &bytes[256..385]);
    sheet.finalize();
    sheet.finalize();
    title(sheet, "same_upload_again_with_pages_of_128", bus);
    sheet.upload(&bytes, most_data(bus, 256));
    sheet.finalize();
    title(sheet, "commit_of_some_changed_pages_of_128", bus);
    let mut other = bytes.clone();
    other[63] ^= 1;
    other[64] ^= 1;
    other[384] ^= 1;
    sheet.upload(&other, 193);
    sheet.finalize();
    title(sheet, "commit_that_changes_nothing_with_pages_of_128", bus);
    sheet.paged_board(bus, 256, 128, 256, 128);
    sheet.write(0, &[0xff; 200]);
    sheet.finalize();
    title(sheet, "last_page_of_128_keeps_the_bytes_after_the_upload", bus);
    sheet.flash(448, 1, 0);
    sheet.write(0, &[0xee; 70]);
    sheet.finalize();
    sheet.read_flash(0, 140);
    sheet.write(0, &[0xee; 200]);
    sheet.finalize();
    sheet.read_flash(128, 128);
    title(sheet, "shortest_frames_with_pages_of_128", bus);
    sheet.paged_board(bus, 32, 128, 256, 0);
    sheet.upload(&image(250), most_data(bus, 32));
    sheet.finalize();
}

fn finalizes(sheet: &mut Sheet, bus: Bus) {
    title(sheet, "erase_count_at_its_bound_with_pages_of_128", bus);
    sheet.paged_board(bus, 256, 128, 384, 128);
    sheet.write(0, &[0x11; 100]);
    sheet.finalize();
    sheet.write(100, &[0x11; 28]);
    sheet.finalize();
    sheet.write(128, &[0x11; 130]);
    sheet.finalize();
    sheet.write(258, &[0x11; 126]);
    sheet.finalize();
    title(sheet, "E10_to_E12_with_pages_of_128", bus);
    sheet.paged_board(bus, 256, 128, 128, 0);
    sheet.write(0, &[0x11; 70]);
    sheet.finalize();
    sheet.write(0, &[0x11; 70]);
    sheet.finalize();
    sheet.write(70, &[0x22]);
    sheet.finalize();
    sheet.read_flash(0, 128);
}

fn ends(sheet: &mut Sheet, bus: Bus) {
    title(sheet, "write_ending_at_S_of_128", bus);
    sheet.paged_board(bus, 256, 128, 128, 128);
    sheet.write(0, &image(129));
    sheet.write(0, &image(127));
    sheet.write(127, &[1, 2]);
    sheet.write(127, &[1]);
    sheet.write(128, &[]);
    sheet.finalize();
    title(sheet, "write_ending_at_largest_S_of_128", bus);
    sheet.paged_board(bus, 64, 128, 65_408, 65_408);
    sheet.state(&state(65_400, 120, 510, 0));
    sheet.write(65_400, &[0x77; 9]);
    sheet.write(65_400, &[0x77; 8]);
    sheet.state(&state(65_407, 127, 510, 0));
    sheet.finalize();
    title(sheet, "start_drops_100_waiting_bytes", bus);
    sheet.paged_board(bus, 128, 128, 128, 0);
    sheet.write(0, &[0x31; 100]);
    sheet.send(START, &[]);
    sheet.general(6);
    sheet.finalize();
}

fn handed_to_64(sheet: &mut Sheet, bus: Bus) {
    title(sheet, "handed_from_128_to_64_malformed", bus);
    sheet.paged_board(bus, 256, 128, 256, 128);
    sheet.write(0, &image(100));
    under(sheet, 64);
    sheet.finalize();
    sheet.write(100, &[1; 28]);
    counted_write(sheet);
    sheet.read_flash(0, 10);
    sheet.read(8);
    sheet.general(6);
    under(sheet, 128);
    sheet.write(100, &[1; 28]);
    sheet.finalize();
    title(sheet, "handed_from_128_to_64_finalized", bus);
    sheet.write(0, &[0x21; 50]);
    under(sheet, 64);
    sheet.read_flash(0, 64);
    sheet.finalize();
    sheet.read_flash(0, 64);
    sheet.write(50, &[0x22; 14]);
    sheet.finalize();
    title(sheet, "handed_from_128_to_64_written_on", bus);
    under(sheet, 128);
    sheet.write(0, &[0x31; 130]);
    under(sheet, 64);
    sheet.write(130, &[0x32; 61]);
    sheet.write(191, &[0x33; 2]);
    sheet.finalize();
    title(sheet, "handed_from_128_to_64_w_as_next_mod_64", bus);
    under(sheet, 128);
    sheet.write(0, &[0x41; 64]);
    sheet.finalize();
    sheet.write(64, &[0x42; 36]);
    under(sheet, 64);
    sheet.finalize();
    sheet.read_flash(0, 128);
}

fn handed_to_128(sheet: &mut Sheet, bus: Bus) {
    title(sheet, "handed_from_64_to_128_finalized", bus);
    sheet.paged_board(bus, 256, 64, 256, 128);
    sheet.flash(448, 3, 1);
    sheet.write(0, &[0x11; 70]);
    under(sheet, 128);
    sheet.read(8);
    sheet.read_flash(64, 64);
    sheet.finalize();
    sheet.read_flash(64, 64);
    title(sheet, "handed_from_64_to_128_written_on", bus);
    under(sheet, 64);
    sheet.write(0, &[0x12; 70]);
    under(sheet, 128);
    sheet.write(70, &[0x13; 57]);
    sheet.write(127, &[0x14]);
    sheet.write(128, &[0x15; 64]);
    sheet.finalize();
    title(sheet, "same_upload_under_the_other_page", bus);
    sheet.write(0, &image(200));
    sheet.finalize();
    under(sheet, 64);
    sheet.write(0, &image(200));
    sheet.finalize();
    title(sheet, "handed_to_128_with_sizes_of_64", bus);
    sheet.paged_board(bus, 64, 64, 192, 64);
    sheet.write(0, &[0x16; 10]);
    under(sheet, 128);
    sheet.finalize();
    sheet.read(8);
    under(sheet, 64);
    sheet.finalize();
}

/// Bytes that waited under 64 join those of 128, and are too many for 64 again.
fn handed_and_back(sheet: &mut Sheet, bus: Bus) {
    title(sheet, "handed_to_128_and_back_malformed", bus);
    sheet.paged_board(bus, 256, 64, 256, 128);
    sheet.write(0, &[0x51; 130]);
    sheet.write(130, &[0x52; 60]);
    under(sheet, 128);
    sheet.write(190, &[0x53; 2]);
    under(sheet, 64);
    sheet.finalize();
    under(sheet, 128);
    sheet.write(192, &[0x54; 64]);
    sheet.finalize();
    title(sheet, "handed_to_128_with_other_S_and_O", bus);
    under(sheet, 64);
    sheet.write(0, &image(200));
    sheet.profile(&paged_profile(bus, 256, 128, 128, 128));
    sheet.finalize();
    sheet.profile(&paged_profile(bus, 256, 128, 256, 0));
    sheet.finalize();
}

#[cfg(test)]
mod tests {
    use super::*;

    /// Number, next, w and count of each call.
    fn told(group: fn(&mut Sheet, Bus), bus: Bus) -> Vec<[u32; 4]> {
        let mut sheet = Sheet::default();
        group(&mut sheet, bus);
        let number = |line: &str, k: usize| line.split(' ').nth(k).unwrap().parse().unwrap();
        sheet.expected.lines().map(|line| [1, 5, 6, 7].map(|k| number(line, k))).collect()
    }

    #[test]
    fn pages_of_128_by_hand() {
        for bus in BUSES {
            let told = told(commits, bus);
            let first = [[0, 63, 63, 0], [0, 64, 64, 0], [0, 127, 127, 0], [0, 127, 127, 0], [0, 128, 0, 1], [0, 128, 0, 1]];
            assert_eq!(told[..6], first);
            assert_eq!(told[6..10], [[0, 256, 0, 2], [0, 385, 1, 3], [0, 385, 0, 4], [0, 385, 0, 4]]);
            // the same upload again, then two pages changed
            assert_eq!([told[12], told[15]], [[0, 385, 0, 0], [0, 385, 0, 2]]);
        }
    }

    #[test]
    fn handed_over_by_hand() {
        for bus in BUSES {
            let told = told(handed_to_64, bus);
            assert!(told[1..7].iter().all(|call| *call == [4, 100, 100, 0]));
            assert_eq!(told[7..9], [[0, 128, 0, 1], [0, 128, 0, 1]]);
            assert_eq!(told[9..13], [[0, 50, 50, 0], [0, 50, 50, 0], [0, 50, 0, 1], [0, 50, 0, 1]]);
            assert_eq!(told[15..19], [[0, 130, 2, 1], [0, 191, 63, 1], [0, 193, 1, 2], [0, 193, 0, 3]]);
            let told = self::told(handed_to_128, bus);
            let read = if bus == Bus::I2c { 0 } else { 1 };
            assert_eq!(told[..4], [[0, 70, 6, 1], [read, 70, 6, 1], [0, 70, 6, 1], [0, 70, 0, 2]]);
            assert_eq!(told[5..9], [[0, 70, 6, 1], [0, 127, 63, 1], [0, 128, 0, 2], [0, 192, 64, 2]]);
        }
    }

    #[test]
    fn wrong_pages_are_refused() {
        for bus in BUSES {
            let told = told(wrong_pages, bus);
            let calls = 2 * WRONG.len();
            assert!(told[1..=calls].iter().all(|call| *call == [2, 0, 0, 0]));
            assert!(told[calls + 1..calls + 5].iter().all(|call| call[0] == 0));
            assert!(told[calls + 5..calls + 8].iter().all(|call| call[0] == 2));
            assert_eq!(told[calls + 8][0], 3);
        }
    }
}
