//! Every public function gives an answer for any input.

use crate::alarms;
use crate::board;
use crate::ledger::{Ledger, Seen};
use crate::check::{demand, framed, paged_profile, write_frame};
use crate::master::{self, Request};
use crate::model::*;
use crate::rng::Rng;
use crate::silences::any_tally;

/// Any input gives an answer: random profiles, states, flash lengths, rooms,
/// frames and replies, most of them out of range.
pub fn any_input(seed: u64, rounds: u64) -> Result<u64, String> {
    let mut rng = Rng::new(seed);
    for round in 0..rounds {
        let p = any_profile(&mut rng);
        let mut s = any_state(&mut rng);
        let mut flash = vec![0xff; rng.of(&[0, 63, 64, 128, 192, 300]) as usize];
        let mut out = vec![0xa5; rng.of(&[0, 31, 32, 64, 256, 300]) as usize];
        let length = rng.of(&[0, 1, 2, 3, 4, 5, 8, 32, 33, 64, 256, 257, 300]) as usize;
        let frame = any_frame(&mut rng, &p, length);
        let given = (s.clone(), flash.clone());
        let mut tally = any_tally(&mut rng);
        let before = tally;
        let answer = board::receive_tally(&p, &mut s, &mut flash, &mut out, 8, &frame, &mut tally);
        let known = matches!(answer.number, 0..=5) || p.bus == Bus::Rs485 && matches!(answer.number, 15..=18);
        demand(known, "a number that no received frame gets")?;
        demand(tally == before || matches!(answer.number, 0 | 15..=18), "a frame without a counter was counted")?;
        let rest = out.get(answer.len..).unwrap_or(&[]);
        demand(rest.iter().all(|&byte| byte == 0xa5), "bytes after the reply were touched")?;
        demand((answer.number == 0) == (answer.len > 0), "number 0 and a reply go together")?;
        demand(answer.number < 2 || (s, flash) == given, "a refused call changed something")?;
        any_master(&mut rng, &p, &frame)?;
        any_ledger(&mut rng, &p, &frame)?;
        if round % 10 == 0 {
            any_alarms(&mut rng, &frame)?;
        }
    }
    Ok(rounds)
}

/// Bytes of any kind: a profile or a state, or too few or too many bytes for one, with numbers that are out of range.
fn any_bytes(rng: &mut Rng, whole: usize) -> Vec<u8> {
    let length = if rng.percent(70) { whole } else { rng.below(whole as u64 + 40) as usize };
    let mut bytes = rng.bytes(length);
    if rng.percent(70) {
        bytes.iter_mut().for_each(|byte| *byte &= 1);
    }
    bytes
}

/// Random bytes as states and as flashes, and as profiles that are none; sometimes one that is.
fn any_alarms(rng: &mut Rng, frame: &[u8]) -> Result<(), String> {
    let mut profile = any_bytes(rng, 36);
    if rng.percent(50) {
        let (bus, page, o) = (rng.byte() & 1, rng.byte() & 1, rng.byte() & 1);
        profile = vec![bus, 7, 0, 0, 0, 0, page, 0, 64, 0, 0, 0, 0, 1, 0, 0, 128 * o, 0, 0, 0];
        profile.resize(36, 0);
    }
    let (before, after) = (any_bytes(rng, 404), any_bytes(rng, 404));
    let (earlier, flash) = (any_bytes(rng, 300), any_bytes(rng, 300));
    let (address, number) = (any_number(rng), any_number(rng));
    let image = any_bytes(rng, 4);
    demand(alarms::silence(&profile, &before, address, frame, number % 20) <= alarms::START, "no silence is that")?;
    demand(alarms::lost(&profile, &before, &after, &flash) <= 128, "more bytes lost than can wait")?;
    demand(alarms::erased_nothing(&profile, frame, number & 1, &image, &after) <= 1, "neither 0 nor 1")?;
    demand(alarms::upload_end(&profile, &image, &earlier, &flash) <= alarms::UNCHANGED, "no end of an upload is that")?;
    demand(alarms::page_changed(&profile, number, &earlier, &flash) <= 1, "neither 0 nor 1")
}

fn any_number(rng: &mut Rng) -> u32 {
    match rng.below(4) {
        0 => rng.number() as u32,
        1 => rng.of(&[0, 1, 31, 32, 63, 64, 65, 127, 128, 255, 256, 257, 4_294_967_295]) as u32,
        _ => rng.of(&[0, 64, 64, 128]) as u32,
    }
}

fn any_profile(rng: &mut Rng) -> Profile {
    let bus = if rng.percent(50) { Bus::I2c } else { Bus::Rs485 };
    let page = any_number(rng);
    let mut p = paged_profile(bus, any_number(rng), page, any_number(rng), any_number(rng));
    p.hardware = rng.byte() % 8;
    let length = rng.of(&[0, 3, 16, 17, 40]) as usize;
    p.serial = rng.bytes(length);
    p
}

fn any_state(rng: &mut Rng) -> State {
    let mut s = State::fresh();
    s.own = if rng.percent(70) { Own::DefaultRange } else { Own::Address(rng.byte()) };
    s.running = rng.percent(10);
    for field in [&mut s.next, &mut s.w, &mut s.count, &mut s.reply_len] {
        *field = if rng.percent(60) { 0 } else { any_number(rng) };
    }
    s
}

fn any_frame(rng: &mut Rng, p: &Profile, length: usize) -> Vec<u8> {
    let body = rng.bytes(length);
    let address = 8 + rng.byte() % 9;
    match rng.below(4) {
        0 => body,
        1 => write_frame(p.bus, address, rng.below(3) * 64, &body),
        _ => framed(p.bus, address, rng.byte() % 16, &body),
    }
}

fn any_master(rng: &mut Rng, p: &Profile, bytes: &[u8]) -> Result<(), String> {
    let code = rng.of(&[0, 1, 3, 6, 6, 7, 8, 8, 12, 15, 260, 262, 4_294_967_295]) as u32;
    let (destination, a, b) = (any_number(rng), any_number(rng), any_number(rng));
    let request = Request { code, destination, a, b, data: bytes };
    let mut out = vec![0xa5; rng.below(300) as usize];
    let made = master::encode(p.bus, any_number(rng), &request, &mut out);
    let rest = out.get(made.len..).unwrap_or(&[]);
    demand(rest.iter().all(|&byte| byte == 0xa5), "bytes after the request were touched")?;
    if let Ok(d) = master::decode(p.bus, code, 8, a, bytes) {
        demand(d.start + d.length <= bytes.len(), "results outside the reply")?;
    }
    let (_, results) = master::two_reads(code, a, bytes, &out);
    demand(results.len() <= 255, "more than 255 results")?;
    any_version(rng, p)
}

fn any_version(rng: &mut Rng, p: &Profile) -> Result<(), String> {
    let (major, minor) = (rng.byte() % 4, rng.byte() % 4);
    let mut out = vec![0xa5; rng.below(7) as usize];
    let made = master::reset_running(p.bus, any_number(rng), major, minor, &mut out);
    let rest = out.get(made.len..).unwrap_or(&[]);
    demand(rest.iter().all(|&byte| byte == 0xa5), "bytes after the reset were touched")?;
    demand((made.number == 0) == (made.len > 0), "number 0 and a reset go together")?;
    let running = master::version(major, minor) == Err(master::APPLICATION_RUNNING);
    demand(made.number != 0 || running, "a reset for a version that isn't running")
}

/// The ledger takes nonsense too. Numbers from 2 on leave it as it is, 15 to 18 among them.
fn any_ledger(rng: &mut Rng, p: &Profile, frame: &[u8]) -> Result<(), String> {
    let mut ledger = Ledger::new(&[0xff; 100]);
    for _ in 0..3 {
        let reply = rng.bytes(4).iter().map(|byte| byte & 1).collect::<Vec<u8>>();
        let seen = Seen::Frame { address: rng.byte() & 8, frame };
        ledger.enter(p, seen, rng.byte() & 1, &reply);
        ledger.enter(p, Seen::Frame { address: 8, frame: &[8, 7, 0, 0] }, 0, &reply);
        ledger.enter(p, Seen::Read { address: 8 }, 0, &reply);
        let given = ledger.clone();
        let number = rng.of(&[2, 3, 4, 5, 15, 16, 17, 18]) as u8;
        for bytes in [frame, &[8, 7, 0, 0], &[0x06], &[0x00, 0x46, 0x80, 0x42]] {
            ledger.enter(p, Seen::Frame { address: 0, frame: bytes }, number, &reply);
        }
        demand(ledger == given, "a number from 2 on changed the ledger")?;
    }
    Ok(())
}
