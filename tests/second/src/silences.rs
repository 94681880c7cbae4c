//! Request W3 judged once more, apart from `board`: which number a received frame gets, as a row of reasons of which the first
//! that stands decides, with the check sums bit by bit; and what the tally comes to over lists of calls.

use crate::bits;
use crate::board;
use crate::check::{demand, framed, general_frame, paged_profile, plain_profile, write_frame};
use crate::model::*;
use crate::rng::Rng;
use crate::tally::Tally;

const UNTOUCHED: u8 = 0xa5;
const MOST_COUNT: u64 = 65_535;

/// The numbers that are counted, in the order of the counters.
const COUNTED: [u8; 5] = [15, 16, 17, 18, 0];

/// A frame on its way to a board.
struct Arrived<'a> {
    p: &'a Profile,
    s: &'a State,
    address: u8,
    frame: &'a [u8],
}

type Reason = (fn(&Arrived) -> bool, u8);

/// Why an RS485 board doesn't carry out a command, in the order of the tests. Both general calls as document 01 prints them.
const RS485: [Reason; 8] = [
    (|a| a.frame == [0x00, 0x46, 0x80, 0x42], 1),
    (|a| a.s.running, 1),
    (|a| a.frame == [0x00, 0x44, 0x01, 0x83], 1),
    (|a| a.frame.len() <= 3, 15),
    (|a| a.frame.len() as u64 >= u64::from(a.p.m) + 1, 16),
    // with its own check sum behind it a frame's check sum is 0
    (|a| bits::crc16(a.frame) != 0, 17),
    (|a| a.frame.starts_with(&[0]), 1),
    (|a| !home(a.s, a.frame[0]), 18),
];

/// The same on I2C. A bad length and a wrong check sum are answered there.
const I2C: [Reason; 4] = [
    (|a| a.address == 0, 1),
    (|a| a.s.running, 1),
    (|a| a.address & 0x80 != 0 || !home(a.s, a.address), 1),
    (|a| !(2..=a.p.m as usize).contains(&a.frame.len()) || bits::crc8(a.frame) != 0, 0),
];

fn home(s: &State, address: u8) -> bool {
    match s.own {
        Own::DefaultRange => address / 8 == 1,
        Own::Address(own) => own == address,
    }
}

/// Start without arguments, and set address for another hardware type, are carried out without a reply.
fn has_no_reply(p: &Profile, frame: &[u8]) -> bool {
    let body = match p.bus {
        Bus::I2c => &frame[..frame.len() - 1],
        Bus::Rs485 => &frame[1..frame.len() - 2],
    };
    match body {
        [0x05] => true,
        [0x01, _, hardware] => *hardware != 0 && *hardware != p.hardware,
        _ => false,
    }
}

/// The number that a frame gets from a board that answers none of 2 to 5.
pub fn judged(p: &Profile, s: &State, address: u8, frame: &[u8]) -> u8 {
    let arrived = Arrived { p, s, address, frame };
    let reasons: &[Reason] = match p.bus {
        Bus::I2c => &I2C,
        Bus::Rs485 => &RS485,
    };
    match reasons.iter().find(|(stands, _)| stands(&arrived)) {
        Some((_, number)) => *number,
        None => u8::from(has_no_reply(p, frame)),
    }
}

/// A tally, and what it must come to.
#[derive(Clone)]
pub struct Watched {
    pub tally: Tally,
    start: [u16; 5],
    /// Received frames by number, in the order of the counters.
    answers: [u64; 5],
}

impl Watched {
    pub fn new(tally: Tally) -> Watched {
        Watched { tally, start: tally.counters(), answers: [0; 5] }
    }

    /// After a received frame on this bus was answered by this number.
    pub fn after(&mut self, bus: Bus, before: Tally, number: u8) -> Result<(), String> {
        let (old, new) = (before.counters(), self.tally.counters());
        for k in 0..5 {
            self.answers[k] += u64::from(COUNTED[k] == number);
            let due = (u64::from(self.start[k]) + self.answers[k]).min(MOST_COUNT);
            demand(u64::from(new[k]) == due, &format!("counter {k} is {}, not {due}, after number {number}", new[k]))?;
            demand(new[k] >= old[k], "a counter fell")?;
            demand(bus == Bus::Rs485 || k == 4 || new[k] == old[k], "another counter than answered rose on I2C")?;
        }
        Ok(())
    }
}

/// What happened in the lists.
#[derive(Default)]
struct Counts {
    /// Frames by bus and number.
    numbers: [[u64; 19]; 2],
    /// Frames by counter that found it at 65535.
    stopped: [u64; 5],
    reads: u64,
    /// Frames to a running board that would have been 15, 16, 17, 18.
    running: [u64; 4],
}

/// A board with its tally, and the same board without one.
struct Twin {
    p: Profile,
    s: State,
    flash: Vec<u8>,
    watched: Watched,
}

impl Twin {
    /// A frame by both calls: the number is the judged one, and all but the tally is the same.
    fn receive(&mut self, room: usize, address: u8, frame: &[u8], counts: &mut Counts) -> Result<u8, String> {
        let (mut s, mut flash) = (self.s.clone(), self.flash.clone());
        let (mut out, mut counted_out) = (vec![UNTOUCHED; room], vec![UNTOUCHED; room]);
        let refused = refusal(&self.p, &s, flash.len(), room);
        let due = refused.unwrap_or_else(|| judged(&self.p, &s, address, frame));
        let given = (s.clone(), self.watched.tally);
        let answer = board::receive(&self.p, &mut s, &mut flash, &mut out, address, frame);
        let (p, own, tally) = (&self.p, &mut self.s, &mut self.watched.tally);
        let counted = board::receive_tally(p, own, &mut self.flash, &mut counted_out, address, frame, tally);
        demand(answer.number == due, &format!("number {}, judged {due}", answer.number))?;
        let same = answer == counted && s == self.s && flash == self.flash && out == counted_out;
        demand(same, "with the tally something else comes out")?;
        if due >= 2 {
            let untouched = s == given.0 && out.iter().all(|&byte| byte == UNTOUCHED);
            demand(untouched, "silence with a reason, or a refusal, changed something")?;
        }
        self.watched.after(self.p.bus, given.1, due)?;
        counts.numbers[self.p.bus as usize][usize::from(due)] += 1;
        for (k, number) in COUNTED.iter().enumerate() {
            let full = u64::from(given.1.counters()[k]) == MOST_COUNT;
            counts.stopped[k] += u64::from(full && *number == due);
        }
        if given.0.running && refused.is_none() {
            let idle = State { running: false, ..given.0 };
            let number = judged(&self.p, &idle, address, frame);
            if number >= 15 {
                counts.running[usize::from(number - 15)] += 1;
            }
        }
        Ok(due)
    }
}

/// Frames of every length near an edge, the short ones to every address, with a right and with wrong check sums, in several
/// states.
fn every_edge() -> Result<u64, String> {
    let mut done = 0;
    for m in [32u32, 33, 255, 256] {
        for own in [Own::DefaultRange, Own::Address(20), Own::Address(0), Own::Address(255)] {
            for running in [false, true] {
                let p = plain_profile(Bus::Rs485, m, 64, 0);
                let s = State { own, running, next: 3, w: 3, count: 0, ..State::fresh() };
                done += edges_of(&p, &s).map_err(|e| format!("{e}; M {m}, {own:?}, running {running}"))?;
            }
        }
    }
    Ok(done)
}

fn edges_of(p: &Profile, s: &State) -> Result<u64, String> {
    let m = p.m as usize;
    let mut done = 0;
    for length in [0, 1, 2, 3, 4, 5, m - 1, m, m + 1, m + 2, 600] {
        let near = |address: &u8| length < 6 || [0, 1, 7, 8, 15, 16, 20, 21, 254, 255].contains(address);
        for address in (0..=255u8).filter(near) {
            for frame in sealed_and_not(length, address) {
                let (mut state, mut flash, mut out) = (s.clone(), vec![0xff; 64], vec![UNTOUCHED; m]);
                let answer = board::receive(p, &mut state, &mut flash, &mut out, 8, &frame);
                let due = judged(p, s, 8, &frame);
                demand(answer.number == due, &format!("number {}, judged {due}: {frame:02x?}", answer.number))?;
                let touched = state != *s || out.iter().any(|&byte| byte != UNTOUCHED);
                demand(due < 2 || !touched, &format!("number {due} changed something: {frame:02x?}"))?;
                done += 1;
            }
        }
    }
    Ok(done)
}

/// A frame of this length, with its right check sum where it has room for one, then with wrong ones: each byte, and swapped.
fn sealed_and_not(length: usize, address: u8) -> Vec<Vec<u8>> {
    let mut body = vec![0; length.max(2) - 2];
    if let Some(first) = body.first_mut() {
        *first = address;
    }
    let [low, high] = bits::crc16(&body).to_le_bytes();
    let sums = [[low, high], [low ^ 1, high], [low, high ^ 0x80], [high, low]];
    let with = |sum: [u8; 2]| [&body[..], &sum].concat()[..length].to_vec();
    sums.map(with).to_vec()
}

/// A counter from 0 to its end and beyond it, by frames of one kind.
fn to_the_end() -> Result<u64, String> {
    let frames: [&[u8]; 5] =
        [&[], &[0x10; 33], &[0x08, 0x00, 0x06, 0x71], &[0x10, 0x00, 0x0c, 0x70], &[0x08, 0x00, 0x06, 0x70]];
    let p = plain_profile(Bus::Rs485, 32, 64, 0);
    let (mut s, mut flash, mut out) = (State::fresh(), vec![0xff; 64], [0; 32]);
    let mut watched = Watched::new(Tally::default());
    let mut done = 0;
    for (frame, number) in frames.into_iter().zip(COUNTED) {
        for _ in 0..MOST_COUNT + 3 {
            let before = watched.tally;
            let answer = board::receive_tally(&p, &mut s, &mut flash, &mut out, 0, frame, &mut watched.tally);
            demand(answer.number == number, &format!("{frame:02x?}: number {}, not {number}", answer.number))?;
            watched.after(Bus::Rs485, before, number)?;
            done += 1;
        }
    }
    demand(watched.tally.counters() == [65_535; 5], "not all counters stand at their end")?;
    Ok(done)
}

/// Counters near their ends, or anywhere.
pub fn any_tally(rng: &mut Rng) -> Tally {
    let mut counter = || match rng.below(3) {
        0 => rng.number() as u16,
        1 => rng.of(&[0, 0, 1, 254, 255, 256, 32_767, 32_768]) as u16,
        _ => rng.of(&[65_279, 65_532, 65_533, 65_534, 65_534, 65_535, 65_535]) as u16,
    };
    Tally::of([counter(), counter(), counter(), counter(), counter()])
}

/// A frame that mostly gets silence: short, long, damaged or foreign, or two of these at once.
pub fn silent_frame(rng: &mut Rng, p: &Profile, own: u8) -> Vec<u8> {
    let most = (p.m as usize).min(590);
    let near = rng.of(&[1, 7, 8, 15, 16, 255, u64::from(own ^ 1), u64::from(own.wrapping_add(1))]) as u8;
    let to = match rng.below(8) {
        0..=2 => own,
        3 => 0,
        4 => rng.byte(),
        _ => near,
    };
    let fill = |length: usize| vec![if length % 2 == 0 { 0x11 } else { 0 }; length];
    let mut frame = match rng.below(8) {
        0 => {
            let length = rng.below(6) as usize;
            let whole = framed(p.bus, to, VERSION, &[7]);
            whole[..length.min(whole.len())].to_vec()
        }
        // one byte, or none, with its right check sum
        1 => sealed(p.bus, &[to][..rng.below(2) as usize]),
        // M, M + 1 and M + 2 bytes
        2 | 3 => {
            let rest = if p.bus == Bus::I2c { 2 } else { 4 };
            let length = most + rng.below(3) as usize;
            framed(p.bus, to, rng.byte() % 16, &fill(length.saturating_sub(rest)))
        }
        4 => framed(p.bus, to, VERSION, &fill(rng.of(&[300, 400, 590]) as usize)),
        5 => {
            let mut frame = general_frame(p.bus, rng.of(&[4, 6, 6, 5]) as u8);
            let last = frame.len() - 1;
            frame[last] ^= rng.of(&[0, 1, 16]) as u8;
            frame
        }
        6 => write_frame(p.bus, to, 0, &fill(rng.below(8) as usize)),
        _ => framed(p.bus, to, rng.byte() % 16, &[]),
    };
    if rng.percent(30) && !frame.is_empty() {
        let k = rng.below(frame.len() as u64) as usize;
        frame[k] ^= 1 << rng.below(8);
    }
    frame
}

fn sealed(bus: Bus, body: &[u8]) -> Vec<u8> {
    match bus {
        Bus::I2c => [body, &[bits::crc8(body)]].concat(),
        Bus::Rs485 => [body, &bits::crc16(body).to_le_bytes()].concat(),
    }
}

fn one_list(rng: &mut Rng, counts: &mut Counts) -> Result<(), String> {
    let bus = if rng.percent(30) { Bus::I2c } else { Bus::Rs485 };
    let m = rng.of(&[32, 33, 64, 255, 256, 256]) as u32;
    let page = rng.of(&PAGES.map(u64::from)) as u32;
    let p = paged_profile(bus, m, page, 128, page);
    let own = match rng.below(6) {
        0 => Own::Address(rng.byte()),
        1 => Own::Address(rng.of(&[0, 1, 20, 127, 128, 255]) as u8),
        _ => Own::DefaultRange,
    };
    let s = State { own, running: rng.percent(10), next: 70, w: 6, count: 1, ..State::fresh() };
    let watched = Watched::new(any_tally(rng));
    let mut twin = Twin { p, s, flash: vec![0xff; 256], watched };
    for step in 0..10 + rng.below(40) {
        let own = match twin.s.own {
            Own::DefaultRange => 8 + rng.byte() % 8,
            Own::Address(own) => own,
        };
        let room = if rng.percent(4) { twin.p.m as usize - 1 } else { twin.p.m as usize };
        if rng.percent(8) {
            // a read is no received frame: the tally isn't lent to it
            let mut out = vec![0; room];
            board::read(&twin.p, &twin.s, &twin.flash, &mut out, own);
            counts.reads += 1;
            continue;
        }
        let frame = match rng.below(30) {
            0..=2 => framed(bus, own, rng.byte() % 16, &[]),
            3 => framed(bus, own, START, &[]),
            4 | 5 => framed(bus, own, SET_ADDRESS, &[rng.byte(), rng.of(&[0, 7, 77]) as u8]),
            6..=9 => general_frame(bus, 6),
            _ => silent_frame(rng, &twin.p, own),
        };
        let address = rng.of(&[u64::from(own), u64::from(own), u64::from(own), 0, 16, 200]) as u8;
        twin.receive(room, address, &frame, counts).map_err(|e| format!("{e}; call {step}: {address} {frame:02x?}"))?;
        if rng.percent(4) {
            twin.s.w = if rng.percent(50) { 0 } else { twin.s.next % page + 1 };
        }
    }
    Ok(())
}

/// All of it; a report line.
pub fn compare(seed: u64, lists: u64) -> Result<String, String> {
    let edges = every_edge()?;
    let ends = to_the_end()?;
    let mut counts = Counts::default();
    for k in 0..lists {
        let mut rng = Rng::new(seed.wrapping_mul(0x1_0000_0001).wrapping_add(k << 9));
        one_list(&mut rng, &mut counts).map_err(|e| format!("{e}; silences, list {k}"))?;
    }
    let [i2c, rs485] = &counts.numbers;
    let on_i2c = [i2c[0], i2c[1], i2c[4], i2c[5]];
    let on_rs485 = [rs485[0], rs485[1], rs485[4], rs485[5], rs485[15], rs485[16], rs485[17], rs485[18]];
    let parts = [&on_i2c[..], &on_rs485, &counts.stopped, &counts.running, &[counts.reads]].concat();
    demand(lists < 1000 || parts.iter().all(|&n| n > 0), "some kind of silence never happened")?;
    demand(i2c[15..].iter().all(|&n| n == 0), "an I2C frame got a number of RS485")?;
    Ok(format!(
        "silences: {edges} frames at edges, {ends} frames to the ends of the counters; lists: I2C frames answered 0 {}, 1 {}, \
         RS485 frames answered 0 {}, 1 {}, 15 to 18 {:?}, while running {:?}, counters already at their ends {:?}",
        i2c[0],
        i2c[1],
        rs485[0],
        rs485[1],
        &rs485[15..],
        counts.running,
        counts.stopped
    ))
}

#[cfg(test)]
mod tests {
    use super::*;

    #[test]
    fn numbers_and_tally_are_the_judged_ones() {
        compare(3, 500).unwrap();
    }

    /// Frames worked by hand, to the fresh board with M 32.
    #[test]
    fn judged_by_hand() {
        let p = plain_profile(Bus::Rs485, 32, 64, 0);
        let fresh = State::fresh();
        let rows: [(&[u8], u8); 9] = [
            (&[], 15),
            (&[0x08, 0x00, 0x06], 15),
            (&[0x08, 0x00, 0x06, 0x70], 0),
            (&[0x08, 0x00, 0x06, 0x71], 17),
            (&[0x08; 33], 16),
            (&[0x00, 0x44, 0x01, 0x82], 17),
            (&[0x00, 0x44, 0x01, 0x83], 1),
            (&[0x00, 0x00, 0x01, 0xb0], 1),
            (&[0x10, 0x00, 0x0c, 0x70], 18),
        ];
        for (frame, number) in rows {
            assert_eq!(judged(&p, &fresh, 0, frame), number, "{frame:02x?}");
        }
        let running = State { running: true, ..State::fresh() };
        assert!(rows.iter().all(|(frame, _)| judged(&p, &running, 0, frame) == 1));
    }
}
