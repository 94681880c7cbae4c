//! Fixed cases of the five calls on what must not be missed. They have a file of their own, alarms.cases.

use super::{title, with_bad_crc};
use crate::cases::{Sheet, BUSES};
use rules::board;
use rules::check::{framed, general_frame, paged_profile, write_frame};
use rules::layout::{profile_bytes, put_numbers, state_bytes, STATE_BYTES};
use rules::model::*;
use rules::rng::Rng;
use rules::script::packed;
use rules::sums::push_crc16;

pub fn all() -> Sheet {
    let mut sheet = Sheet::default();
    for bus in BUSES {
        silences(&mut sheet, bus);
        silence_numbers(&mut sheet, bus);
        silence_states(&mut sheet, bus);
        silence_addresses(&mut sheet, bus);
        profiles(&mut sheet, bus);
        finalizes(&mut sheet, bus);
    }
    lost_counts(&mut sheet);
    lost_places(&mut sheet);
    lost_states(&mut sheet);
    upload_ends(&mut sheet);
    upload_sizes(&mut sheet);
    changed_pages(&mut sheet);
    page_numbers(&mut sheet);
    for bus in BUSES {
        for page in PAGES {
            real_calls(&mut sheet, bus, page);
        }
    }
    random_lines(&mut sheet);
    sheet
}

// A line of each call.

fn silence(sheet: &mut Sheet, profile: &[u8], state: &[u8], address: u32, frame: &[u8], number: u32) {
    let (profile, state, frame) = (packed(profile), packed(state), packed(frame));
    sheet.line(&format!("Q {profile} {state} {address} {frame} {number}"));
}

fn lost(sheet: &mut Sheet, profile: &[u8], before: &[u8], after: &[u8], flash: &[u8]) {
    sheet.line(&format!("L {} {} {} {}", packed(profile), packed(before), packed(after), packed(flash)));
}

fn erased_nothing(sheet: &mut Sheet, profile: &[u8], frame: &[u8], number: u32, reply: &[u8], after: &[u8]) {
    let (profile, frame, reply, after) = (packed(profile), packed(frame), packed(reply), packed(after));
    sheet.line(&format!("X {profile} {frame} {number} {reply} {after}"));
}

fn upload_end(sheet: &mut Sheet, profile: &[u8], image: &[u8], earlier: &[u8], flash: &[u8]) {
    sheet.line(&format!("U {} {} {} {}", packed(profile), packed(image), packed(earlier), packed(flash)));
}

fn page_changed(sheet: &mut Sheet, profile: &[u8], page: u32, earlier: &[u8], flash: &[u8]) {
    sheet.line(&format!("H {} {page} {} {}", packed(profile), packed(earlier), packed(flash)));
}

/// M 64, pages of 64, S 256, O 64, hardware type 7.
fn plain(bus: Bus) -> Profile {
    paged_profile(bus, 64, 64, 256, 64)
}

fn plain_bytes(bus: Bus) -> Vec<u8> {
    profile_bytes(&plain(bus))
}

fn at_own(own: u8, running: bool) -> State {
    State { own: Own::Address(own), running, ..State::fresh() }
}

/// So many frames stand first in `frames`.
const FIRST: usize = 10;

/// Frames to a board at 9, where the default range listens too, with the address beside them: first one for each silence and those
/// that get a reply most plainly.
fn frames(bus: Bus) -> Vec<(u32, Vec<u8>)> {
    let to = |address: u8, code: u8, args: &[u8]| (u32::from(address), framed(bus, address, code, args));
    let mut list = vec![
        (0, general_frame(bus, 6)),
        (0, general_frame(bus, 4)),
        to(0, VERSION, &[]),
        to(20, VERSION, &[]),
        to(9, START, &[]),
        to(9, SET_ADDRESS, &[30, 8]),
        (9, vec![9, 0, 6]),
        (9, framed(bus, 9, WRITE, &[0; 64])),
        (9, with_bad_crc(framed(bus, 9, VERSION, &[]))),
        to(9, VERSION, &[]),
    ];
    assert_eq!(list.len(), FIRST);
    list.extend([
        to(9, START, &[0]),
        to(9, SET_ADDRESS, &[30, 7]),
        to(9, SET_ADDRESS, &[30, 0]),
        to(9, SET_ADDRESS, &[30, 255]),
        to(9, SET_ADDRESS, &[0, 8]),
        to(9, SET_ADDRESS, &[8]),
        to(9, SET_ADDRESS, &[30, 8, 8]),
        to(9, FINALIZE, &[]),
        to(9, 0x0e, &[]),
        to(20, START, &[]),
        to(8, START, &[]),
        to(0, START, &[]),
        (9, general_frame(bus, 6)),
        (9, general_frame(bus, 4)),
        (0, general_frame(bus, 6)[..].repeat(2)),
        (0, with_bad_crc(general_frame(bus, 6))),
        (0, vec![0x44]),
        (0, vec![0x04, 0x00]),
        (0, vec![]),
        (9, vec![]),
        (20, vec![9]),
        (20, with_bad_crc(framed(bus, 20, VERSION, &[]))),
        (0, with_bad_crc(framed(bus, 0, VERSION, &[]))),
        (9, with_bad_crc(framed(bus, 9, WRITE, &[0; 64]))),
        (20, with_bad_crc(framed(bus, 20, WRITE, &[0; 64]))),
    ]);
    // the longest frames that the board takes, and a byte more
    let args = if bus == Bus::I2c { 62 } else { 60 };
    for (address, more) in [(9, 0), (9, 1), (20, 0), (20, 1), (0, 0), (0, 1)] {
        list.push((u32::from(address), framed(bus, address, WRITE, &vec![0; args + more])));
    }
    list
}

/// The number that the board answers to a frame.
fn number(p: &Profile, s: &State, address: u32, frame: &[u8]) -> u32 {
    let mut flash = vec![0xff; p.o as usize + p.s as usize];
    let answer = board::receive(p, &mut s.clone(), &mut flash, &mut [0; 256], address.min(255) as u8, frame);
    u32::from(answer.number)
}

/// With the board's own numbers.
fn silences(sheet: &mut Sheet, bus: Bus) {
    let p = plain(bus);
    let states = [
        ("silence_fresh", State::fresh()),
        ("silence_at_9", at_own(9, false)),
        ("silence_at_20", at_own(20, false)),
        ("silence_running", State { running: true, ..State::fresh() }),
        ("silence_running_at_9", at_own(9, true)),
    ];
    for (name, s) in states {
        title(sheet, name, bus);
        for (address, frame) in frames(bus) {
            let number = number(&p, &s, address, &frame);
            silence(sheet, &profile_bytes(&p), &state_bytes(&s), address, &frame, number);
        }
    }
    title(sheet, "silence_of_types", bus);
    for (own, sent) in [(1, 0), (1, 1), (1, 2), (7, 6), (7, 7), (255, 0), (255, 127), (255, 254), (255, 255)] {
        let p = Profile { hardware: own, ..p.clone() };
        let frame = framed(bus, 9, SET_ADDRESS, &[30, sent]);
        let number = number(&p, &State::fresh(), 9, &frame);
        silence(sheet, &profile_bytes(&p), &state_bytes(&State::fresh()), 9, &frame, number);
    }
    title(sheet, "silence_by_M", bus);
    for m in [32, 33, 255, 256] {
        let p = Profile { m, ..p.clone() };
        for length in [m as usize - 1, m as usize, m as usize + 1] {
            let args = length - if bus == Bus::I2c { 2 } else { 4 };
            let frame = framed(bus, 20, WRITE, &vec![0; args]);
            let number = number(&p, &State::fresh(), 20, &frame);
            silence(sheet, &profile_bytes(&p), &state_bytes(&State::fresh()), 20, &frame, number);
        }
    }
}

fn silence_numbers(sheet: &mut Sheet, bus: Bus) {
    let (profile, fresh) = (plain_bytes(bus), state_bytes(&State::fresh()));
    title(sheet, "silence_by_every_number", bus);
    let frame = framed(bus, 20, VERSION, &[]);
    let above = [40, 255, 256, 257, 271, 274, 65_537, 65_551, 2_147_483_649, 4_294_967_281, 4_294_967_295];
    for number in (0..=22).chain(above) {
        silence(sheet, &profile, &fresh, 20, &frame, number);
    }
    title(sheet, "silence_numbers_that_do_not_fit", bus);
    for (k, (address, frame)) in frames(bus).into_iter().enumerate() {
        let numbers: &[u32] = if k < FIRST { &[0, 1, 15, 16, 17, 18] } else { &[1] };
        for &number in numbers {
            silence(sheet, &profile, &fresh, address, &frame, number);
        }
    }
}

/// The state, as bytes that hold one or not. A board at 20 that runs, and one that doesn't.
fn silence_states(sheet: &mut Sheet, bus: Bus) {
    let profile = plain_bytes(bus);
    let both = |sheet: &mut Sheet, change: &dyn Fn(&mut Vec<u8>)| {
        for running in [true, false] {
            let mut state = state_bytes(&at_own(20, running));
            change(&mut state);
            silence(sheet, &profile, &state, 20, &framed(bus, 20, START, &[]), 1);
            silence(sheet, &profile, &state, 9, &framed(bus, 9, START, &[]), 1);
        }
    };
    title(sheet, "silence_state_of_some_length", bus);
    for length in [0, 1, 3, 20, 340, 403, 404, 405, 500] {
        both(sheet, &|state| state.resize(length, 0));
    }
    title(sheet, "silence_address_kind_and_running", bus);
    for (at, byte) in [(0, 0), (0, 2), (0, 255), (2, 2), (2, 255), (3, 255)] {
        both(sheet, &|state| state[at] = byte);
    }
    title(sheet, "silence_malformed_state", bus);
    for numbers in [[257, 0, 0, 0], [64, 1, 0, 0], [70, 6, 65, 0], [0, 0, 0, 1], [0, 0, 0, 65], [u32::MAX; 4]] {
        both(sheet, &|state| put_numbers(&mut state[4..20], &numbers));
    }
}

fn silence_addresses(sheet: &mut Sheet, bus: Bus) {
    let profile = plain_bytes(bus);
    title(sheet, "silence_by_address", bus);
    let beside = [0, 1, 7, 8, 15, 16, 127, 128, 136, 200, 255, 256, 264, 65_544, 2_147_483_656, 4_294_967_048, 4_294_967_295];
    for address in beside {
        let frame = framed(bus, address as u8, START, &[]);
        silence(sheet, &profile, &state_bytes(&State::fresh()), address, &frame, 1);
    }
    title(sheet, "silence_by_own_address", bus);
    for own in [0, 1, 8, 127, 128, 200, 255] {
        for address in [0, own, 8, own ^ 1] {
            let frame = framed(bus, address, START, &[]);
            silence(sheet, &profile, &state_bytes(&at_own(own, false)), u32::from(address), &frame, 1);
        }
    }
    title(sheet, "silence_address_beside_the_frame", bus);
    let frame = framed(bus, 9, START, &[]);
    for address in [0, 8, 9, 20, 300] {
        silence(sheet, &profile, &state_bytes(&at_own(9, false)), address, &frame, 1);
    }
}

/// Every field of the profile at its ends and out of range, a byte too few, and more bytes: by one line of each call.
fn profiles(sheet: &mut Sheet, bus: Bus) {
    title(sheet, "profile_good", bus);
    let good: [&dyn Fn(&mut Profile); 10] = [
        &|_| {},
        &|p| p.m = 32,
        &|p| p.m = 256,
        &|p| p.s = 64,
        &|p| p.s = 65_472,
        &|p| p.o = 0,
        &|p| (p.page, p.s, p.o) = (128, 128, 128),
        &|p| (p.page, p.s, p.o) = (128, 65_408, 0),
        &|p| p.hardware = 255,
        &|p| p.serial = vec![0x51; 16],
    ];
    for change in good {
        let mut p = plain(bus);
        change(&mut p);
        with_profile(sheet, bus, &profile_bytes(&p));
    }
    with_profile(sheet, bus, &[plain_bytes(bus), vec![0xff; 5]].concat());
    with_profile(sheet, bus, &[&plain_bytes(bus)[..7], &[0xff], &plain_bytes(bus)[8..]].concat());
    title(sheet, "profile_too_short", bus);
    for length in [0, 1, 7, 20, 35] {
        with_profile(sheet, bus, &plain_bytes(bus)[..length]);
    }
    title(sheet, "profile_out_of_range", bus);
    // S and O are multiples of both pages
    for (at, byte) in [(0, 2), (0, 255), (1, 0), (5, 17), (5, 255), (6, 2), (6, 64), (6, 128), (6, 255)] {
        let mut profile = profile_bytes(&paged_profile(bus, 64, 64, 256, 128));
        profile[at] = byte;
        with_profile(sheet, bus, &profile);
    }
    let sizes = [(8, 0), (8, 31), (8, 257), (8, 65_600), (12, 0), (12, 63), (12, 65_536), (16, 1), (16, 96), (16, 65_536)];
    let high = [(8, 0x4000_0040), (12, 0x8000_0100), (16, 0xffff_ffc0)];
    for (at, number) in sizes.into_iter().chain(high) {
        let mut profile = plain_bytes(bus);
        put_numbers(&mut profile[at..at + 4], &[number]);
        with_profile(sheet, bus, &profile);
    }
    // multiples of 64 only, with pages of 128
    for (s, o) in [(64, 0), (192, 0), (256, 64), (65_472, 0), (128, 65_472)] {
        with_profile(sheet, bus, &profile_bytes(&paged_profile(bus, 64, 128, s, o)));
    }
}

/// Start, a finalize, an image, and a page and bytes that wait at 0: each of them tells bus and M, bus, S and O, page and O, and O.
fn with_profile(sheet: &mut Sheet, bus: Bus, profile: &[u8]) {
    let fresh = state_bytes(&State::fresh());
    silence(sheet, profile, &fresh, 9, &framed(bus, 9, START, &[]), 1);
    silence(sheet, profile, &fresh, 9, &framed(bus, 20, VERSION, &[]), 18);
    let finalize = framed(bus, 9, FINALIZE, &[]);
    let reply = framed(bus, 9, OK, &[2, 0, 0]);
    erased_nothing(sheet, profile, &finalize, 0, &reply, &fresh);
    let before = vec![0xff; 384];
    let flash = [vec![0xff; 64], vec![0x11; 64], vec![0xff; 256]].concat();
    upload_end(sheet, profile, &[0x11; 64], &before, &flash);
    upload_end(sheet, profile, &[0xff; 65], &before, &flash);
    for page in [0, 1] {
        page_changed(sheet, profile, page, &before, &flash);
    }
    let waiting = State { next: 6, w: 6, waiting: [0x11; MOST_PAGE], ..State::fresh() };
    lost(sheet, profile, &state_bytes(&waiting), &fresh, &flash);
}

/// The state before with next, w, and every waiting byte 0x11.
fn waits(next: u32, w: u32) -> State {
    State { next, w, waiting: [0x11; MOST_PAGE], ..State::fresh() }
}

/// Every answer: so many of 128 bytes don't stand in flash.
fn lost_counts(sheet: &mut Sheet) {
    sheet.note("lost_0_to_128");
    let profile = profile_bytes(&paged_profile(Bus::I2c, 64, 128, 256, 128));
    let fresh = state_bytes(&State::fresh());
    for count in 0..=128 {
        let flash = [vec![0xff; 128], vec![0x11; 128 - count], vec![0xff; 128 + count]].concat();
        lost(sheet, &profile, &state_bytes(&waits(128, 128)), &fresh, &flash);
    }
}

/// Bytes of one state in flash and in the other, at their places and next to them.
fn lost_places(sheet: &mut Sheet) {
    let fresh = state_bytes(&State::fresh());
    let mut counted = waits(70, 6);
    for (k, byte) in counted.waiting.iter_mut().enumerate() {
        *byte = k as u8 + 1;
    }
    for o in [0, 64] {
        sheet.note(&format!("lost_places_O_{o}"));
        let profile = profile_bytes(&paged_profile(Bus::Rs485, 64, 64, 128, o));
        let before = state_bytes(&counted);
        for at in 61..=66 {
            let mut flash = vec![0xff; 256];
            let first = o as usize + at;
            flash[first..first + 6].copy_from_slice(&counted.waiting[..6]);
            lost(sheet, &profile, &before, &fresh, &flash);
        }
        for length in [0, 64, 65, 69, 70, 71, 128, 129, 133, 134, 135] {
            let mut flash = vec![0xff; 256];
            let first = o as usize + 64;
            flash[first..first + 6].copy_from_slice(&counted.waiting[..6]);
            lost(sheet, &profile, &before, &fresh, &flash[..length]);
        }
    }
    sheet.note("lost_still_waiting");
    let (profile, flash) = (plain_bytes(Bus::I2c), vec![0xff; 320]);
    let before = state_bytes(&counted);
    for (next, w) in [(70, 6), (70, 5), (69, 5), (69, 6), (71, 7), (71, 6), (6, 6), (134, 6), (70, 0), (100, 36), (68, 4), (70, 134)] {
        let after = State { next, w, ..counted.clone() };
        lost(sheet, &profile, &before, &state_bytes(&after), &flash);
    }
    let mut others = counted.clone();
    for at in [0, 3, 5] {
        others.waiting[at] ^= 0x40;
        lost(sheet, &profile, &before, &state_bytes(&others), &flash);
    }
    sheet.note("lost_some_wait_some_stand");
    let after = State { next: 67, w: 3, ..counted.clone() };
    for first in [64 + 64, 64 + 67, 64 + 68] {
        let mut flash = flash.clone();
        flash[first..first + 2].copy_from_slice(&counted.waiting[first - 128..first - 126]);
        lost(sheet, &profile, &before, &state_bytes(&after), &flash);
    }
    sheet.note("lost_high_places");
    let far = profile_bytes(&paged_profile(Bus::I2c, 64, 64, 65_472, 65_472));
    for (next, length) in [(65_472, 130_944), (65_472, 130_943), (65_472, 65_472), (65_478, 130_950)] {
        let flash = vec![0x11; length];
        lost(sheet, &far, &state_bytes(&waits(next, 6)), &fresh, &flash);
    }
}

/// Numbers and lengths that no call makes.
fn lost_states(sheet: &mut Sheet) {
    let fresh = state_bytes(&State::fresh());
    let (profile, flash) = (plain_bytes(Bus::I2c), [vec![0x11; 100], vec![0xff; 220]].concat());
    sheet.note("lost_w_at_and_over_128");
    for w in [0, 1, 127, 128, 129, 200, 300, 65_536 + 6, 2_147_483_648, u32::MAX] {
        for next in [300, u32::MAX] {
            lost(sheet, &profile, &state_bytes(&waits(next, w)), &fresh, &flash);
            lost(sheet, &profile, &state_bytes(&waits(next, w)), &state_bytes(&waits(next, w)), &flash);
        }
    }
    sheet.note("lost_first_128_of_more");
    for (next, w) in [(200, 129), (200, 136), (200, 150), (200, 200), (164, 164), (64, 64)] {
        lost(sheet, &profile, &state_bytes(&waits(next, w)), &fresh, &flash);
        lost(sheet, &profile, &state_bytes(&waits(next, 6)), &state_bytes(&waits(next, w)), &flash);
    }
    sheet.note("lost_more_waiting_than_accepted");
    for (next, w) in [(0, 1), (0, 6), (3, 6), (5, 6), (6, 6), (10, 128), (127, 128), (127, 300)] {
        lost(sheet, &profile, &state_bytes(&waits(next, w)), &fresh, &flash);
        lost(sheet, &profile, &state_bytes(&waits(next, w)), &state_bytes(&waits(next, w)), &flash);
        lost(sheet, &profile, &state_bytes(&waits(6, 6)), &state_bytes(&waits(next, w)), &vec![0xff; 320]);
    }
    sheet.note("lost_states_of_some_length");
    let (before, flash) = (state_bytes(&waits(200, 6)), vec![0xff; 320]);
    for length in [0, 1, 19, 20, 148, 340, 403, 404, 405, 500] {
        let mut cut = before.clone();
        cut.resize(length, 0);
        lost(sheet, &profile, &cut, &fresh, &flash);
        lost(sheet, &profile, &before, &cut, &flash);
    }
    sheet.note("lost_address_kind_and_running_not_looked_at");
    for (at, byte) in [(0, 1), (0, 2), (0, 255), (2, 1), (2, 2), (2, 255), (3, 255), (12, 255), (16, 255)] {
        let mut other = before.clone();
        other[at] = byte;
        lost(sheet, &profile, &other, &fresh, &flash);
        lost(sheet, &profile, &before, &other, &flash);
    }
}

/// A finalize, its reply and the state after it, each changed by itself.
fn finalizes(sheet: &mut Sheet, bus: Bus) {
    let profile = plain_bytes(bus);
    let front = if bus == Bus::I2c { 0 } else { 1 };
    let finalize = framed(bus, 9, FINALIZE, &[]);
    let reply = framed(bus, 9, OK, &[2, 0, 0]);
    let after = |count: u32| state_bytes(&State { next: 70, count, ..State::fresh() });
    title(sheet, "finalize_by_count", bus);
    for count in [0, 1, 2, 255, 256, 65_536, 16_777_216, u32::MAX] {
        erased_nothing(sheet, &profile, &finalize, 0, &reply, &after(count));
    }
    title(sheet, "finalize_by_number", bus);
    for number in (0..=18).chain([40, 256, 65_536, 2_147_483_648, u32::MAX]) {
        erased_nothing(sheet, &profile, &finalize, number, &reply, &after(0));
    }
    title(sheet, "finalize_by_status", bus);
    for status in [0, 1, 2, 5, 6, 128, 255] {
        erased_nothing(sheet, &profile, &finalize, 0, &framed(bus, 9, status, &[0]), &after(0));
    }
    for length in 0..reply.len() {
        erased_nothing(sheet, &profile, &finalize, 0, &reply[..length], &after(0));
    }
    title(sheet, "finalize_told_another_count", bus);
    for told in [[0, 1], [1, 0]] {
        let reply = framed(bus, 9, OK, &[2, told[0], told[1]]);
        erased_nothing(sheet, &profile, &finalize, 0, &reply, &after(0));
        erased_nothing(sheet, &profile, &finalize, 0, &reply, &after(1));
    }
    title(sheet, "finalize_by_command", bus);
    for code in [0, 3, 5, 6, 7, 8, 0x0e, 0x17, 0x47, 0x87, 0xff] {
        erased_nothing(sheet, &profile, &framed(bus, 9, code, &[]), 0, &reply, &after(0));
    }
    erased_nothing(sheet, &profile, &framed(bus, 7, 9, &[7, 7]), 0, &reply, &after(0));
    erased_nothing(sheet, &profile, &framed(bus, 9, WRITE, &[0, 0]), 0, &framed(bus, 9, OK, &[0]), &after(0));
    title(sheet, "finalize_frame_that_does_not_fit", bus);
    for length in 0..=finalize.len() {
        erased_nothing(sheet, &profile, &finalize[..length], 0, &reply, &after(0));
    }
    erased_nothing(sheet, &profile, &with_bad_crc(finalize.clone()), 0, &reply, &after(0));
    erased_nothing(sheet, &profile, &framed(bus, 9, FINALIZE, &[1]), 0, &reply, &after(0));
    erased_nothing(sheet, &profile, &finalize, 0, &reply[..=front], &after(0));
    title(sheet, "finalize_state_of_some_length", bus);
    for length in [0, 12, 15, 16, 340, 403, 404, 405] {
        for count in [0, 3] {
            let mut state = after(count);
            state.resize(length, 0);
            erased_nothing(sheet, &profile, &finalize, 0, &reply, &state);
        }
    }
    title(sheet, "finalize_address_kind_and_running_not_looked_at", bus);
    for (at, byte) in [(0, 2), (0, 255), (2, 1), (2, 2), (8, 255)] {
        for count in [0, 3] {
            let mut state = after(count);
            state[at] = byte;
            erased_nothing(sheet, &profile, &finalize, 0, &reply, &state);
        }
    }
}

/// A flash of `len` bytes, erased but for the given ones.
fn with_bytes(len: usize, at: usize, bytes: &[u8]) -> Vec<u8> {
    let mut flash = vec![0xff; len];
    flash[at..at + bytes.len()].copy_from_slice(bytes);
    flash
}

fn upload_ends(sheet: &mut Sheet) {
    // S 256, O 64
    let profile = plain_bytes(Bus::I2c);
    let earlier = vec![0xff; 384];
    let image = [vec![0x11; 64], vec![0x22; 36]].concat();
    sheet.note("upload_whole_partly_unchanged");
    for length in [0, 1, 63, 64, 65, 99, 100] {
        let flash = with_bytes(384, 64, &image[..length]);
        upload_end(sheet, &profile, &image, &earlier, &flash);
        upload_end(sheet, &profile, &image, &flash, &flash);
        upload_end(sheet, &profile, &image[..length], &earlier, &flash);
    }
    for at in [0, 50, 63, 64, 98, 99] {
        let mut damaged = image.clone();
        damaged[at] ^= 1;
        upload_end(sheet, &profile, &image, &earlier, &with_bytes(384, 64, &damaged));
    }
    sheet.note("upload_at_another_place");
    for at in [0, 63, 65, 128] {
        upload_end(sheet, &profile, &image, &earlier, &with_bytes(384, at, &image));
    }
    sheet.note("upload_changed_outside");
    for at in [0, 63, 64, 319, 320, 383] {
        upload_end(sheet, &profile, &image, &earlier, &with_bytes(384, at, &[0x33]));
        upload_end(sheet, &profile, &image, &with_bytes(384, at, &[0x33]), &earlier);
    }
    sheet.note("upload_of_nothing");
    for (earlier, flash) in [(384, 384), (384, 0), (0, 384), (0, 0), (64, 64), (63, 65)] {
        upload_end(sheet, &profile, &[], &vec![0xff; earlier], &vec![0x11; flash]);
    }
}

/// Images and flashes that are too long or too short.
fn upload_sizes(sheet: &mut Sheet) {
    let profile = plain_bytes(Bus::I2c);
    let earlier = vec![0xff; 384];
    sheet.note("upload_of_S_bytes_and_more");
    for length in [255, 256, 257, 320] {
        upload_end(sheet, &profile, &vec![0x11; length], &earlier, &with_bytes(384, 64, &[0x11; 320]));
        upload_end(sheet, &profile, &vec![0xff; length], &earlier, &earlier);
        upload_end(sheet, &profile, &vec![0xff; length], &with_bytes(384, 319, &[0]), &earlier);
    }
    sheet.note("upload_flash_shorter_than_O_and_S");
    for length in [0, 1, 63, 64, 65, 100, 163, 164, 165, 319, 320, 321] {
        let flash = vec![0x11; length];
        upload_end(sheet, &profile, &[0x11; 100], &flash, &flash);
        upload_end(sheet, &profile, &[0x22; 100], &flash, &flash);
    }
    sheet.note("upload_flashes_of_two_lengths");
    for (before, now) in [(64, 63), (64, 65), (65, 64), (100, 101), (319, 320), (320, 319), (320, 321), (384, 320), (0, 64), (0, 320)] {
        upload_end(sheet, &profile, &[0x11; 4], &vec![0xff; before], &vec![0xff; now]);
    }
    sheet.note("upload_O_beyond_the_flash");
    let far = profile_bytes(&paged_profile(Bus::Rs485, 64, 64, 64, 65_472));
    for image in [&[][..], &[0xff], &[0x11]] {
        upload_end(sheet, &far, image, &earlier, &[0x11; 384]);
    }
    sheet.note("upload_largest");
    let large = profile_bytes(&paged_profile(Bus::Rs485, 64, 64, 65_472, 65_472));
    let now = [vec![0xff; 65_472], vec![0x11; 65_472]].concat();
    for length in [65_471, 65_472, 65_473] {
        upload_end(sheet, &large, &vec![0x11; length], &vec![0xff; 130_944], &now);
        upload_end(sheet, &large, &vec![0x11; length], &vec![0xff; 130_944], &now[..130_943]);
        upload_end(sheet, &large, &vec![0x22; length], &now, &now);
    }
}

fn changed_pages(sheet: &mut Sheet) {
    for page in PAGES {
        sheet.note(&format!("page_changed_pages_of_{page}"));
        let (size, o) = (page as usize, 128);
        let profile = profile_bytes(&paged_profile(Bus::I2c, 64, page, 256, 128));
        let earlier = vec![0xff; 512];
        for at in [0, o - 1, o, o + 63, o + 64, o + 127, o + 128, o + 255, o + 256, 511] {
            let flash = with_bytes(512, at, &[0x11]);
            for number in 0..(384 / size) as u32 {
                page_changed(sheet, &profile, number, &earlier, &flash);
            }
        }
        page_changed(sheet, &profile, 0, &with_bytes(512, o, &[0x11]), &earlier);
        page_changed(sheet, &profile, 0, &with_bytes(512, o, &[0x11]), &with_bytes(512, o, &[0x11]));
        sheet.note(&format!("page_changed_by_length_pages_of_{page}"));
        let lengths = [0, o - 1, o, o + 1, o + size - 1, o + size, o + size + 1, o + 2 * size];
        for before in lengths {
            for now in lengths {
                page_changed(sheet, &profile, 1, &vec![0xff; before], &vec![0xff; now]);
            }
        }
        for (before, now) in [(o + 10, o + 10), (o + 10, o + 9), (o, o + 1), (o, o), (0, 0)] {
            page_changed(sheet, &profile, 0, &vec![0xff; before], &vec![0xff; now]);
        }
        page_changed(sheet, &profile, 0, &vec![0xff; o + 10], &vec![0x11; o + 10]);
    }
}

/// Past the end, and where the place needs more than 32 bits.
fn page_numbers(sheet: &mut Sheet) {
    for page in PAGES {
        for o in [0, 128] {
            sheet.note(&format!("page_numbers_pages_of_{page}_O_{o}"));
            let profile = profile_bytes(&paged_profile(Bus::Rs485, 64, page, 256, o));
            let near = [0, 1, 2, 3, 4, 5, 6, 7, 8, 100, 1_022, 1_023, 1_024, 65_535, 65_536];
            let high = [1 << 24, 1 << 25, 1 << 26, 1 << 27, (1 << 25) + 1, (1 << 26) + 1, (1 << 31) - 1, 1 << 31, u32::MAX - 1, u32::MAX];
            for number in near.into_iter().chain(high) {
                page_changed(sheet, &profile, number, &[0xff; 512], &[0x11; 512]);
            }
        }
    }
    sheet.note("page_numbers_of_the_largest_flash");
    let large = profile_bytes(&paged_profile(Bus::Rs485, 64, 64, 65_472, 65_472));
    let earlier = vec![0xff; 130_944];
    for (number, at) in [(1_022, 130_943), (1_022, 130_880), (1_022, 130_879), (1_023, 130_943), (0, 65_472), (0, 65_471)] {
        page_changed(sheet, &large, number, &earlier, &with_bytes(130_944, at, &[0x11]));
    }
}

/// A walk of the second program's board: each frame, and what the five calls say of it.
struct Walk {
    profile: Profile,
    image: Vec<u8>,
    earlier: Vec<u8>,
}

impl Walk {
    fn state(sheet: &Sheet) -> Vec<u8> {
        state_bytes(&sheet.runner.state)
    }

    fn flash(sheet: &Sheet) -> Vec<u8> {
        sheet.runner.flash.clone().expect("a flash is set")
    }

    fn frame(&self, sheet: &mut Sheet, address: u8, frame: &[u8]) {
        let (before, flash_before, mut out) = (sheet.runner.state.clone(), Walk::flash(sheet), [0; 256]);
        let (mut state, mut flash) = (before.clone(), flash_before.clone());
        let answer = board::receive(&self.profile, &mut state, &mut flash, &mut out[..64], address, frame);
        sheet.frame(address, frame);
        let (profile, number) = (profile_bytes(&self.profile), u32::from(answer.number));
        let (before, after) = (state_bytes(&before), Walk::state(sheet));
        silence(sheet, &profile, &before, u32::from(address), frame, number);
        lost(sheet, &profile, &before, &after, &flash);
        erased_nothing(sheet, &profile, frame, number, &out[..answer.len], &after);
        for page in 0..=self.profile.s / self.profile.page {
            page_changed(sheet, &profile, page, &flash_before, &flash);
        }
        upload_end(sheet, &profile, &self.image, &self.earlier, &flash);
    }

    fn send(&self, sheet: &mut Sheet, code: u8, args: &[u8]) {
        let own = sheet.own();
        self.frame(sheet, own, &framed(self.profile.bus, own, code, args));
    }

    fn write(&self, sheet: &mut Sheet, at: usize, end: usize) {
        let own = sheet.own();
        self.frame(sheet, own, &write_frame(self.profile.bus, own, at as u64, &self.image[at..end]));
    }
}

fn real_calls(sheet: &mut Sheet, bus: Bus, page: u32) {
    title(sheet, &format!("real_calls_pages_of_{page}"), bus);
    sheet.paged_board(bus, 64, page, 256, 128);
    let image = [vec![0x21; 50], vec![0x22; 50], vec![0x23; 50]].concat();
    let walk = Walk { profile: paged_profile(bus, 64, page, 256, 128), image, earlier: Walk::flash(sheet) };
    let general = |code: u8| general_frame(bus, code);
    walk.send(sheet, VERSION, &[]);
    walk.send(sheet, FINALIZE, &[]);
    walk.write(sheet, 0, 50);
    walk.write(sheet, 60, 110);
    walk.send(sheet, SET_ADDRESS, &[30, 8]);
    walk.frame(sheet, 20, &framed(bus, 20, FINALIZE, &[]));
    walk.frame(sheet, 8, &with_bad_crc(framed(bus, 8, FINALIZE, &[])));
    walk.frame(sheet, 8, &[0x07]);
    walk.frame(sheet, 8, &framed(bus, 8, WRITE, &[0; 64]));
    walk.frame(sheet, 0, &framed(bus, 0, FINALIZE, &[]));
    // a new write at 0 with the first of the same bytes, and with others
    walk.write(sheet, 0, 20);
    walk.frame(sheet, 8, &write_frame(bus, 8, 0, &[0x44; 10]));
    walk.write(sheet, 0, 50);
    walk.frame(sheet, 0, &general(4));
    walk.frame(sheet, 0, &general(6));
    walk.write(sheet, 0, 50);
    walk.send(sheet, START, &[1]);
    walk.send(sheet, START, &[]);
    walk.send(sheet, VERSION, &[]);
    walk.frame(sheet, 0, &general(4));
    walk.frame(sheet, 0, &general(6));
    walk.send(sheet, SET_ADDRESS, &[30, 7]);
    for turn in 0..2 {
        walk.write(sheet, 0, 50);
        walk.write(sheet, 50, 100);
        walk.write(sheet, 100, 150);
        if turn == 0 {
            power_cut(sheet, &walk);
        }
        walk.send(sheet, FINALIZE, &[1]);
        walk.send(sheet, FINALIZE, &[]);
        walk.send(sheet, FINALIZE, &[]);
    }
    power_cut(sheet, &walk);
}

/// What a power cut loses: the state after it is fresh, or gone.
fn power_cut(sheet: &mut Sheet, walk: &Walk) {
    let (profile, before, flash) = (profile_bytes(&walk.profile), Walk::state(sheet), Walk::flash(sheet));
    lost(sheet, &profile, &before, &state_bytes(&State::fresh()), &flash);
    lost(sheet, &profile, &before, &[], &flash);
}

/// Bytes in runs, of few values, so that much of what is compared is the same.
fn runs(rng: &mut Rng, len: usize) -> Vec<u8> {
    let mut bytes = Vec::with_capacity(len);
    while bytes.len() < len {
        let byte = rng.of(&[0, 1, 2, 0xff]) as u8;
        let run = 1 + rng.of(&[0, 3, 20, 70, 200]) as usize;
        bytes.resize((bytes.len() + run).min(len), byte);
    }
    bytes
}

fn random_profile(rng: &mut Rng) -> Vec<u8> {
    let page = rng.of(&[64, 128]) as u32;
    let bus = BUSES[rng.below(2) as usize];
    let (s, o) = (page * (1 + rng.below(3) as u32), page * rng.below(3) as u32);
    let mut profile = profile_bytes(&paged_profile(bus, rng.of(&[32, 40, 64]) as u32, page, s, o));
    match rng.below(12) {
        0 => profile.truncate(rng.below(36) as usize),
        1 => profile[rng.of(&[0, 1, 5, 6, 8, 9, 12, 13, 16, 17]) as usize] ^= 1 << rng.below(8),
        _ => {}
    }
    profile
}

fn random_state(rng: &mut Rng, near: u32) -> Vec<u8> {
    let mut state = state_bytes(&State::fresh());
    state[0] = rng.of(&[0, 0, 0, 1, 1, 2]) as u8;
    state[1] = rng.of(&[0, 9, 20, 200]) as u8;
    state[2] = rng.of(&[0, 0, 0, 0, 1, 2]) as u8;
    let w = rng.of(&[0, 1, 6, 40, 64, 100, 127, 128, 129]) as u32;
    let next = (near + w).saturating_add_signed(rng.of(&[0, 0, 0, 1, 2, 64]) as i32 - 1);
    put_numbers(&mut state[4..16], &[next, w, rng.of(&[0, 0, 1, 256]) as u32]);
    state[20..148].copy_from_slice(&runs(rng, 128));
    if rng.percent(8) {
        state.truncate(rng.below(STATE_BYTES as u64) as usize);
    }
    state
}

fn random_frame(rng: &mut Rng, bus: Bus) -> Vec<u8> {
    let address = rng.of(&[0, 8, 9, 9, 9, 20]) as u8;
    let mut frame = match rng.below(12) {
        0 => general_frame(bus, 4),
        1 => general_frame(bus, 6),
        2 | 3 => framed(bus, address, START, &[]),
        4 | 5 => framed(bus, address, SET_ADDRESS, &[30, rng.of(&[0, 7, 8]) as u8]),
        6 | 7 => framed(bus, address, FINALIZE, &[]),
        8 => framed(bus, address, VERSION, &[]),
        9 => {
            let length = rng.of(&[26, 30, 34, 60, 64]) as usize;
            framed(bus, address, WRITE, &runs(rng, length))
        }
        10 => {
            let length = rng.below(5) as usize;
            rng.bytes(length)
        }
        _ => {
            let mut frame = vec![address; rng.below(3) as usize];
            push_crc16(&mut frame);
            frame
        }
    };
    if rng.percent(15) && !frame.is_empty() {
        let k = rng.below(frame.len() as u64) as usize;
        frame[k] ^= 1 << rng.below(8);
    }
    frame
}

/// Lines of all five calls from one seed.
fn random_lines(sheet: &mut Sheet) {
    sheet.note("random_lines");
    let mut rng = Rng::new(2213);
    for _ in 0..100 {
        let profile = random_profile(&mut rng);
        let bus = BUSES[usize::from(profile.first() == Some(&1))];
        let near = 64 * rng.below(4) as u32;
        let (before, after) = (random_state(&mut rng, near), random_state(&mut rng, near));
        let (frame, address) = (random_frame(&mut rng, bus), rng.of(&[0, 8, 9, 9, 20, 137]) as u32);
        let number = rng.of(&[0, 1, 1, 1, 15, 16, 17, 18, 19]) as u32;
        silence(sheet, &profile, &before, address, &frame, number);
        let finalize = if rng.percent(70) { framed(bus, 9, FINALIZE, &[]) } else { frame };
        let reply = framed(bus, 9, rng.of(&[0, 0, 0, 5]) as u8, &[2, 0, 0]);
        erased_nothing(sheet, &profile, &finalize, rng.of(&[0, 0, 0, 1]) as u32, &reply, &after);
        let length = rng.of(&[0, 64, 100, 320, 384, 512]) as usize;
        let flash = runs(&mut rng, length);
        lost(sheet, &profile, &before, &after, &flash);
        let mut earlier = flash.clone();
        if rng.percent(70) && length > 0 {
            earlier[rng.below(length as u64) as usize] ^= 4;
        }
        if rng.percent(20) {
            earlier.truncate(rng.below(length as u64 + 1) as usize);
        }
        let page = rng.of(&[0, 0, 1, 1, 2, 3, 4, 5]) as u32;
        page_changed(sheet, &profile, page, &earlier, &flash);
        let (first, more) = ((64 * rng.below(5) as usize).min(length), rng.of(&[0, 1, 30, 64, 128, 200]) as usize);
        let mut image = flash[first..(first + more).min(length)].to_vec();
        if rng.percent(30) && !image.is_empty() {
            let k = rng.below(image.len() as u64) as usize;
            image[k] ^= 8;
        }
        upload_end(sheet, &profile, &image, &earlier, &flash);
    }
}

#[cfg(test)]
mod tests {
    /// Every answer of every call is reached, and no line is longer than the programs for targets take.
    #[test]
    fn every_answer() {
        let sheet = super::all();
        let reached = |letter: char, answer: u32| sheet.expected.lines().any(|line| line == format!("{letter} {answer}"));
        for (letter, most) in [('Q', 9), ('L', 128), ('X', 1), ('U', 2), ('H', 1)] {
            for answer in 0..=most {
                assert!(reached(letter, answer), "{letter} {answer}");
            }
        }
        assert!(sheet.cases.lines().all(|line| line.len() < 4096));
    }
}
