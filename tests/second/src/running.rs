//! Version 0.0 and the reset of a running application (request W4), over every version and over random boards.
//!
//! Exactly one version is "application running". What `master::reset_running` writes for it resets every board of its bus
//! that answers none of 2 to 5, running or not: the state is fresh, the flash as before, no reply. At another I2C address
//! it resets nothing. A bootloader's version reply is a known version, so that nothing is written for it.

use crate::board;
use crate::check::{demand, framed, paged_profile};
use crate::master;
use crate::model::*;
use crate::rng::Rng;

const BUSES: [Bus; 2] = [Bus::I2c, Bus::Rs485];
const UNTOUCHED: u8 = 0xa5;

/// The two resets, as document 01 prints them.
fn printed(bus: Bus) -> &'static [u8] {
    match bus {
        Bus::I2c => &[0x06],
        Bus::Rs485 => &[0x00, 0x46, 0x80, 0x42],
    }
}

/// What random boards came to.
#[derive(Default)]
struct Counts {
    /// Boards reset on each bus: not running, running.
    resets: [[u64; 2]; 2],
    refused: u64,
    /// Resets at an I2C address that is not 0.
    elsewhere: u64,
    /// Version replies before and after the reset.
    replies: [u64; 2],
}

/// The number of the version rule and the numbers of the call, written apart from `master`.
fn numbers(major: u8, minor: u8) -> (u8, [u8; 2]) {
    match (major, minor) {
        (0, 0) => (40, [0, 6]),
        (1..=2, _) => (0, [1, 1]),
        _ => (14, [14, 14]),
    }
}

/// Every version to the rule and to the call, on both buses, with just room enough and with one byte less.
fn every_version() -> Result<u64, String> {
    let mut running = 0;
    for k in 0..=65_535u16 {
        let [major, minor] = k.to_be_bytes();
        let (rule, call) = numbers(major, minor);
        let told = master::version(major, minor);
        demand(told.err().unwrap_or(0) == rule, &format!("the version rule at {major}.{minor}"))?;
        running += u64::from(rule == 40);
        for bus in BUSES {
            one_version(bus, major, minor, call).map_err(|e| format!("{e}: {bus:?}, version {major}.{minor}"))?;
        }
    }
    demand(running == 1, "more than one version is a running application")?;
    Ok(65_536)
}

fn one_version(bus: Bus, major: u8, minor: u8, wanted: [u8; 2]) -> Result<(), String> {
    let whole = printed(bus).len();
    for (room, number) in [whole, whole - 1].into_iter().zip(wanted) {
        let mut out = vec![UNTOUCHED; room];
        let made = master::reset_running(bus, 32, major, minor, &mut out);
        demand(made.number == number, "the call's number")?;
        demand(made.len == if number == 0 { whole } else { 0 }, "the length made")?;
        demand(number == 0 || out.iter().all(|&byte| byte == UNTOUCHED), "nothing made, output touched")?;
        demand(number != 0 || out == printed(bus), "not the reset")?;
    }
    Ok(())
}

/// M decides before the version and the room.
fn every_m() -> Result<u64, String> {
    let mut done = 0;
    for m in (0..=300).chain([65_536 + 32, 4_294_967_295]) {
        for (bus, (major, minor)) in BUSES.into_iter().flat_map(|bus| [(0, 0), (2, 2), (0, 1)].map(|v| (bus, v))) {
            let allowed = (32..=256).contains(&m);
            let (_, [with, without]) = numbers(major, minor);
            for (room, number) in [(4, with), (0, without)] {
                let mut out = vec![UNTOUCHED; room];
                let made = master::reset_running(bus, m, major, minor, &mut out);
                let wanted = if allowed { number } else { 2 };
                demand(made.number == wanted, &format!("{bus:?}, M {m}, version {major}.{minor}, room {room}"))?;
                done += 1;
            }
        }
    }
    Ok(done)
}

/// A board in any state: mostly well formed, half of them running.
struct Given {
    p: Profile,
    s: State,
    flash: Vec<u8>,
    room: usize,
}

fn any_board(rng: &mut Rng) -> Given {
    let bus = BUSES[rng.below(2) as usize];
    let m = 32 + rng.below(225) as u32;
    let page = rng.of(&PAGES.map(u64::from)) as u32;
    let size = page * rng.of(&[1, 2, 3, 10]) as u32;
    let p = paged_profile(bus, m, page, size, page * rng.below(3) as u32);
    let mut s = State::fresh();
    s.own = if rng.percent(30) { Own::DefaultRange } else { Own::Address(rng.byte()) };
    s.running = rng.percent(50);
    s.next = rng.below(u64::from(size) + 1) as u32;
    s.w = rng.below(u64::from(s.next % page) + 1) as u32;
    s.count = rng.below(u64::from(s.next - s.w) + 1) as u32;
    s.waiting.copy_from_slice(&rng.bytes(MOST_PAGE));
    s.reply.copy_from_slice(&rng.bytes(256));
    if bus == Bus::I2c {
        s.reply_len = rng.below(u64::from(m) + 1) as u32;
    }
    let need = (p.o + p.s) as usize;
    let (past_flash, past_room) = (rng.below(3) as usize, rng.below(3) as usize);
    let mut given = Given { p, s, flash: rng.bytes(need + past_flash), room: m as usize + past_room };
    match rng.below(40) {
        0 => given.room = rng.below(u64::from(m)) as usize,
        1 => given.s.w = given.s.next % page + 1,
        2 => given.flash.truncate(need - 1),
        3 => given.p.hardware = 0,
        _ => {}
    }
    given
}

impl Given {
    /// A frame to the board: the number, and the reply if there is one.
    fn receive(&mut self, address: u8, frame: &[u8]) -> Result<(u8, Vec<u8>), String> {
        let mut out = vec![UNTOUCHED; self.room];
        let answer = board::receive(&self.p, &mut self.s, &mut self.flash, &mut out, address, frame);
        let rest = &out[answer.len..];
        demand(rest.iter().all(|&byte| byte == UNTOUCHED), "bytes after the reply were touched")?;
        out.truncate(answer.len);
        Ok((answer.number, out))
    }

    /// The version request at an address; whether a reply came, which is then a known version.
    fn is_asked(&mut self, address: u8) -> Result<bool, String> {
        let bus = self.p.bus;
        let (number, reply) = self.receive(address, &framed(bus, address, VERSION, &[]))?;
        if number != 0 {
            return Ok(false);
        }
        let decoded = master::decode(bus, u32::from(VERSION), u32::from(address), 0, &reply);
        let d = decoded.map_err(|number| format!("a version reply does not decode: number {number}"))?;
        demand(d.status == OK && d.length == 2, "a version reply is not OK with two results")?;
        let (major, minor) = (reply[d.start], reply[d.start + 1]);
        demand(master::version(major, minor) == Ok((2, 2)), "a bootloader's version is not known")?;
        for room in [0, 4] {
            let mut out = vec![UNTOUCHED; room];
            let made = master::reset_running(bus, self.p.m, major, minor, &mut out);
            let nothing = made == Answer::only(1) && out.iter().all(|&byte| byte == UNTOUCHED);
            demand(nothing, "a bootloader's version is taken for a running application")?;
        }
        Ok(true)
    }
}

fn one_board(rng: &mut Rng, counts: &mut Counts) -> Result<(), String> {
    let mut given = any_board(rng);
    let bus = given.p.bus;
    let mut out = vec![UNTOUCHED; printed(bus).len()];
    let made = master::reset_running(bus, given.p.m, 0, 0, &mut out);
    demand(made.number == 0, "the reset was not written")?;
    let refused = refusal(&given.p, &given.s, given.flash.len(), given.room);
    asked_before(rng, &mut given, counts)?;
    let before = (given.s.clone(), given.flash.clone());
    if bus == Bus::I2c {
        elsewhere(rng, &mut given, &out)?;
        counts.elsewhere += 1;
        given.s = before.0.clone();
    }
    let address = if bus == Bus::I2c { 0 } else { rng.byte() };
    let (number, _) = given.receive(address, &out)?;
    demand(given.flash == before.1, "the reset changed the flash")?;
    if let Some(refused) = refused {
        counts.refused += 1;
        return demand(number == refused && given.s == before.0, "a refused call changed something");
    }
    demand(number == 1, "the reset was answered")?;
    demand(given.s == State::fresh(), "the reset did not make the state fresh")?;
    counts.resets[bus as usize][usize::from(before.0.running)] += 1;
    for address in 8..=15 {
        demand(given.is_asked(address)?, "a board after the reset does not answer in the default range")?;
        counts.replies[1] += 1;
    }
    Ok(())
}

/// The version asked before the reset, at the own address or any other: a running board doesn't answer.
fn asked_before(rng: &mut Rng, given: &mut Given, counts: &mut Counts) -> Result<(), String> {
    let own = match given.s.own {
        Own::DefaultRange => 8 + rng.byte() % 8,
        Own::Address(own) => own,
    };
    let before = given.s.clone();
    let answered = given.is_asked(if rng.percent(80) { own } else { rng.byte() })?;
    demand(!answered || !before.running, "a running board answered")?;
    demand(given.s == before || answered, "a version request without a reply changed something")?;
    counts.replies[0] += u64::from(answered);
    Ok(())
}

/// At an I2C address that is not 0 the reset is a frame of one byte.
fn elsewhere(rng: &mut Rng, given: &mut Given, reset: &[u8]) -> Result<(), String> {
    let before = given.s.clone();
    let address = match given.s.own {
        Own::Address(own @ 1..) if rng.percent(50) => own,
        _ => 1 + rng.below(255) as u8,
    };
    let (number, reply) = given.receive(address, reset)?;
    let kept = |s: &State| (s.own, s.running, s.next, s.w, s.count, s.waiting);
    demand(kept(&given.s) == kept(&before), "the reset worked at another address")?;
    match number {
        0 => demand(!before.running && reply == [INVALID_TRANSFER, 0, 0xe8], "not the reply to a frame of one byte"),
        _ => demand(given.s == before, "an unanswered frame changed something"),
    }
}

/// All of it; a report line.
pub fn compare(seed: u64, boards: u64) -> Result<String, String> {
    let versions = every_version()?;
    let calls = every_m()?;
    let mut counts = Counts::default();
    for k in 0..boards {
        let mut rng = Rng::new(seed.wrapping_mul(0x1_0000_0001).wrapping_add(k << 8));
        one_board(&mut rng, &mut counts).map_err(|e| format!("{e}; running applications, board {k}"))?;
    }
    let [[i2c, i2c_running], [rs485, rs485_running]] = counts.resets;
    let [replies, after] = counts.replies;
    let parts = [i2c, i2c_running, rs485, rs485_running, counts.refused, counts.elsewhere, replies];
    demand(boards < 1000 || parts.iter().all(|&n| n > 0), "some kind of board was never reset")?;
    Ok(format!(
        "running applications: {versions} versions, {calls} calls at edges of M, boards reset: I2C {i2c} and running {i2c_running}, \
         RS485 {rs485} and running {rs485_running}; {} refused, {} I2C resets at other addresses, \
         {replies} version replies before and {after} after",
        counts.refused, counts.elsewhere
    ))
}
