//! Random calls on what must not be missed, with buffers of their own: most of them plausible, some of any bytes.

use crate::alarms::Alarm;
use crate::cases::{random_set_address, BUSES};
use crate::layout::{profile_bytes, put, state_bytes, PROFILE_BYTES, STATE_BYTES};
use crate::lists::{any_profile_bytes, any_state, any_state_bytes, some_own};
use rules::check::{framed, general_frame, paged_profile};
use rules::model::*;
use rules::rng::Rng;
use rules::silences::silent_frame;

pub fn any_alarm(rng: &mut Rng) -> Alarm {
    let p = small_profile(rng);
    let profile = match rng.below(20) {
        0 => any_bytes(rng, PROFILE_BYTES),
        1 => profile_bytes(&p)[..rng.of(&[0, 1, 20, 35, 35]) as usize].to_vec(),
        2 | 3 => any_profile_bytes(rng, &p),
        _ => profile_bytes(&p),
    };
    match rng.below(10) {
        0 | 1 => silence(rng, &p, profile),
        2 => exactly_lost(rng, &p, profile),
        3..=5 => exactly_lost(rng, &p, profile_bytes(&p)),
        6 => lost(rng, &p, profile),
        7 => erased_nothing(rng, &p, profile),
        8 => upload_end(rng, &p, profile),
        _ => page_changed(rng, &p, profile),
    }
}

/// A board with a small flash, now and then with the largest O.
fn small_profile(rng: &mut Rng) -> Profile {
    let page = rng.of(&[64, 128]) as u32;
    let (s, o) = (page * (1 + rng.below(4) as u32), page * rng.below(3) as u32);
    let o = if rng.percent(2) { 65_408 } else { o };
    let m = rng.of(&[32, 33, 40, 64, 256]) as u32;
    let hardware = 1 + rng.below(255) as u8;
    Profile { hardware, ..paged_profile(BUSES[rng.below(2) as usize], m, page, s, o) }
}

/// Any bytes, mostly as many as asked for.
fn any_bytes(rng: &mut Rng, whole: usize) -> Vec<u8> {
    let length = if rng.percent(70) { whole } else { rng.below(whole as u64 + 40) as usize };
    let small = rng.percent(50);
    rng.bytes(length).into_iter().map(|byte| if small { byte & 1 } else { byte }).collect()
}

/// Few values in short runs, so that much of what is compared is the same.
fn runs(rng: &mut Rng, len: usize) -> Vec<u8> {
    let mut bytes = Vec::with_capacity(len);
    while bytes.len() < len {
        let byte = rng.of(&[0, 1, 2, 0xff]) as u8;
        let run = 1 + rng.below(90) as usize;
        bytes.resize((bytes.len() + run).min(len), byte);
    }
    bytes
}

fn silence(rng: &mut Rng, p: &Profile, profile: Vec<u8>) -> Alarm {
    let s = any_state(rng, p);
    let own = some_own(rng, &s);
    let to = rng.of(&[u64::from(own), u64::from(own), u64::from(own), 0, 16, 20]) as u8;
    let (bus, address) = (p.bus, u32::from(to));
    let address = address.wrapping_add(rng.of(&[0, 0, 0, 0, 0, 0, 0, 128, 256, 65_536, 4_294_967_040]) as u32);
    let (address, frame) = match rng.below(10) {
        0 => (0, general_frame(bus, 4)),
        1 => (0, general_frame(bus, 6)),
        2 => (address, framed(bus, to, START, &[])),
        3 => {
            let length = rng.below(3) as usize;
            (address, framed(bus, to, START, &rng.bytes(length)))
        }
        4 | 5 => (address, random_set_address(rng, p, to)),
        6 => (address, framed(bus, to, rng.byte() % 16, &[])),
        7 => {
            let length = rng.below(8) as usize;
            (address, rng.bytes(length))
        }
        _ => (address, silent_frame(rng, p, own)),
    };
    let state = match rng.below(20) {
        0 => any_bytes(rng, STATE_BYTES),
        1 => state_bytes(&s)[..STATE_BYTES - 1].to_vec(),
        2..=5 => any_state_bytes(rng, p, &s),
        _ => state_bytes(&s),
    };
    let number = rng.of(&[0, 1, 1, 1, 1, 15, 16, 17, 18, 19, 40, 257, 4_294_967_295]) as u32;
    Alarm::Silence { profile, state, address, frame, number }
}

/// The state with these numbers and waiting bytes.
fn waits(rng: &mut Rng, next: u32, w: u32, waiting: &[u8]) -> Vec<u8> {
    let mut state = State { next, w, own: Own::Address(rng.byte()), running: rng.percent(30), ..State::fresh() };
    state.waiting[..waiting.len()].copy_from_slice(waiting);
    state.count = rng.below(3) as u32;
    state_bytes(&state)
}

/// Any number of bytes lost out of 128: some of the others still wait, and the rest stand in flash.
fn exactly_lost(rng: &mut Rng, p: &Profile, profile: Vec<u8>) -> Alarm {
    let count = rng.below(MOST_PAGE as u64 + 1) as usize;
    let waiting = rng.bytes(MOST_PAGE);
    let first = rng.of(&[0, 0, 1, 64, 100]) as u32;
    let kept = rng.below((MOST_PAGE - count) as u64 + 1) as usize;
    let from = rng.below((MOST_PAGE - kept) as u64 + 1) as usize;
    let end = p.o as usize + first as usize + MOST_PAGE;
    let mut flash = vec![0xff; end + rng.below(40) as usize];
    // the first so many of the places that don't wait are lost
    let mut others: Vec<usize> = (0..from).chain(from + kept..MOST_PAGE).collect();
    for k in (1..others.len()).rev() {
        others.swap(k, rng.below(k as u64 + 1) as usize);
    }
    for (k, &at) in others.iter().enumerate() {
        let byte = waiting[at];
        flash[p.o as usize + first as usize + at] = if k < count { byte ^ (1 << rng.below(8)) } else { byte };
    }
    let next = first + MOST_PAGE as u32;
    let before = waits(rng, next, MOST_PAGE as u32, &waiting);
    let after_next = first + (from + kept) as u32;
    let after = waits(rng, after_next, kept as u32, &waiting[from..from + kept]);
    Alarm::Lost { profile, before, after, flash }
}

/// States with few values, at places near each other, and with numbers that no call makes.
fn lost(rng: &mut Rng, p: &Profile, profile: Vec<u8>) -> Alarm {
    let near = rng.below(300) as u32;
    let mut state = || {
        let w = rng.of(&[0, 1, 6, 30, 63, 64, 100, 127, 128, 129, 200]) as u32;
        let next = near + w + rng.of(&[0, 0, 1, 2]) as u32;
        let waiting = runs(rng, MOST_PAGE);
        let mut bytes = waits(rng, next, w, &waiting);
        match rng.below(12) {
            0 => bytes.truncate(rng.of(&[0, 20, 403, 403]) as usize),
            1 => put(&mut bytes, 4, rng.of(&[0, 5, 127, 65_536, 4_294_967_295]) as u32),
            2 => put(&mut bytes, 8, rng.of(&[0, 5, 127, 65_536, 4_294_967_295]) as u32),
            3 => bytes[0] = rng.byte(),
            4 => bytes[2] = rng.byte(),
            5 => bytes = any_bytes(rng, STATE_BYTES),
            _ => {}
        }
        bytes
    };
    let (before, mut after) = (state(), state());
    if rng.percent(30) {
        after = before.clone();
        let at = rng.below(after.len() as u64) as usize;
        after.iter_mut().skip(at).take(1).for_each(|byte| *byte ^= 1);
    }
    let length = rng.of(&[0, 64, 100, 300, 600]) as usize + if rng.percent(80) { p.o as usize } else { 0 };
    Alarm::Lost { profile, before, after, flash: runs(rng, length) }
}

fn erased_nothing(rng: &mut Rng, p: &Profile, profile: Vec<u8>) -> Alarm {
    let to = rng.byte();
    let mut frame = framed(p.bus, to, if rng.percent(80) { FINALIZE } else { rng.byte() % 16 }, &[]);
    let mut reply = framed(p.bus, to, rng.of(&[0, 0, 0, 0, 1, 5, 7, 255]) as u8, &[2, 0, rng.byte() & 1]);
    if rng.percent(10) {
        frame.truncate(rng.below(frame.len() as u64 + 1) as usize);
    }
    if rng.percent(10) {
        reply.truncate(rng.below(4) as usize);
    }
    let number = rng.of(&[0, 0, 0, 0, 0, 0, 1, 18, 256, 4_294_967_295]) as u32;
    let mut after = state_bytes(&any_state(rng, p));
    put(&mut after, 12, rng.of(&[0, 0, 0, 0, 1, 2, 256, 65_536, 16_777_216]) as u32);
    match rng.below(12) {
        0 => after.truncate(rng.of(&[0, 12, 16, 403]) as usize),
        1 => after = any_bytes(rng, STATE_BYTES),
        2 => after[0] = rng.byte(),
        _ => {}
    }
    Alarm::ErasedNothing { profile, frame, number, reply, after }
}

/// Two copies of a flash, the same or nearly, mostly of one length.
fn copies(rng: &mut Rng, p: &Profile) -> (Vec<u8>, Vec<u8>) {
    let (o, s) = (u64::from(p.o), u64::from(p.s));
    let length = rng.of(&[o + s, o + s, o + s + 64, o + s - 1, o + s - 64, o + 10, o, o / 2, 0]) as usize;
    let flash = runs(rng, length);
    let mut earlier = flash.clone();
    for _ in 0..rng.below(3) {
        let at = rng.below(length as u64) as usize;
        earlier.iter_mut().skip(at).take(1).for_each(|byte| *byte ^= 4);
    }
    if rng.percent(15) {
        earlier.truncate(rng.below(length as u64 + 1) as usize);
    }
    if rng.percent(50) {
        return (flash, earlier);
    }
    (earlier, flash)
}

fn upload_end(rng: &mut Rng, p: &Profile, profile: Vec<u8>) -> Alarm {
    let (earlier, flash) = copies(rng, p);
    let first = (p.o as usize).min(flash.len());
    let (left, s) = ((flash.len() - first) as u64, u64::from(p.s));
    let length = rng.of(&[0, 1, 10, s, s, s + 1, left, left]).min(left) as usize;
    let mut image = flash[first..first + length].to_vec();
    match rng.below(6) {
        0 => image.push(rng.byte()),
        1 | 2 => {
            let at = rng.below(length as u64) as usize;
            image.iter_mut().skip(at).take(1).for_each(|byte| *byte ^= 8);
        }
        3 => image.resize(p.s as usize + 1 + rng.below(70) as usize, 0xff),
        _ => {}
    }
    Alarm::UploadEnd { profile, image, earlier, flash }
}

fn page_changed(rng: &mut Rng, p: &Profile, profile: Vec<u8>) -> Alarm {
    let (earlier, flash) = copies(rng, p);
    let page = match rng.below(10) {
        0 => rng.number() as u32,
        1 => (rng.of(&[1 << 25, 1 << 26, 1 << 31, (1 << 32) - 2]) + rng.below(2)) as u32,
        _ => rng.below(8) as u32,
    };
    Alarm::PageChanged { profile, page, earlier, flash }
}
