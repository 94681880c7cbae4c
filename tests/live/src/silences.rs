//! Why frames got silence, what the board's tally counted, and the edges of both (request W3).

use crate::layout::TALLY_BYTES;
use rules::board::hears;
use rules::check::general_frame;
use rules::model::*;
use rules::sums::crc16_right;
use rules::tally::Tally as Counters;

/// A received frame to a board in this state, and its number.
pub struct Received<'a> {
    pub p: &'a Profile,
    pub s: &'a State,
    pub address: u32,
    pub frame: &'a [u8],
    pub number: u32,
}

/// The tally that a counted call was lent.
pub struct Lent {
    pub counters: Option<Counters>,
    pub len: usize,
}

#[derive(Default)]
pub struct Silences {
    /// 15 to 18, by frames that were not counted and by those that were.
    numbers: [[u64; 4]; 2],
    /// By place in `EDGES` and in `TALLY_EDGES`.
    edges: [u64; EDGES.len()],
    tally_edges: [u64; TALLY_EDGES.len()],
    counters: [Counter; 5],
}

/// What happened to one counter.
#[derive(Default)]
struct Counter {
    rose: u64,
    /// From a low byte of 255.
    carried: u64,
    /// From 65534.
    reached_end: u64,
    stopped: u64,
}

const COUNTERS: [(&str, u32); 5] = [("short", 15), ("long", 16), ("CRC", 17), ("foreign", 18), ("answered", 0)];

type Edge = (&'static str, fn(&Received) -> bool);

const EDGES: [Edge; 32] = [
    ("no bytes", |r| r.is(15) && r.frame.is_empty()),
    ("1 byte", |r| r.is(15) && r.frame.len() == 1),
    ("2 bytes, right CRC", |r| r.is(15) && r.frame.len() == 2 && r.sum_right()),
    ("3 bytes", |r| r.is(15) && r.frame.len() == 3),
    ("3 bytes, right CRC", |r| r.is(15) && r.frame.len() == 3 && r.sum_right()),
    ("4 bytes answered", |r| r.is(0) && r.frame.len() == 4),
    ("M bytes answered", |r| r.is(0) && r.over_m() == 0),
    ("M + 1 bytes", |r| r.is(16) && r.over_m() == 1),
    ("M + 1 bytes, right CRC", |r| r.is(16) && r.over_m() == 1 && r.sum_right()),
    ("over M, not over 256 bytes", |r| r.is(16) && r.frame.len() <= 256),
    ("over 300 bytes", |r| r.is(16) && r.frame.len() > 300),
    ("short to another", |r| r.is(15) && r.to_another()),
    ("short to all", |r| r.is(15) && r.to_all()),
    ("long, wrong CRC, to another", |r| r.is(16) && !r.sum_right() && r.to_another()),
    ("long, right CRC, to another", |r| r.is(16) && r.sum_right() && r.to_another()),
    ("long to all", |r| r.is(16) && r.to_all()),
    ("wrong CRC to the board", |r| r.is(17) && !r.to_another() && !r.to_all()),
    ("wrong CRC to another", |r| r.is(17) && r.to_another()),
    ("wrong CRC, M bytes", |r| r.is(17) && r.over_m() == 0),
    ("damaged reset", |r| r.is(17) && r.frame.len() == 4 && r.frame.starts_with(&[0, 0x46])),
    ("foreign 7 to the default range", |r| r.is(18) && r.in_default_range() && r.frame[0] == 7),
    ("foreign 16 to the default range", |r| r.is(18) && r.in_default_range() && r.frame[0] == 16),
    ("foreign 8 to 15 to an own address", |r| r.is(18) && (8..=15).contains(&r.frame[0])),
    ("foreign next to an own address", |r| r.is(18) && matches!(r.s.own, Own::Address(own) if own ^ 1 == r.frame[0])),
    ("foreign to a board at 0", |r| r.is(18) && r.s.own == Own::Address(0)),
    ("another general call", |r| r.is(1) && r.to_all() && !r.s.running && !r.is_general()),
    ("amid an upload", |r| (15..=18).any(|n| r.is(n)) && r.s.w > 0),
    ("short while running", |r| r.is(1) && r.s.running && r.frame.len() < 4),
    ("long while running", |r| r.is(1) && r.s.running && r.over_m() > 0),
    ("wrong CRC while running", |r| r.is(1) && r.s.running && r.whole() && !r.sum_right()),
    ("foreign while running", |r| r.is(1) && r.s.running && r.whole() && r.sum_right() && r.to_another()),
    ("general call while running", |r| r.is(1) && r.s.running && r.whole() && r.sum_right() && r.to_all()),
];

type TallyEdge = (&'static str, fn(&Received, &Lent) -> bool);

const TALLY_EDGES: [TallyEdge; 14] = [
    ("no tally: no bytes, RS485 silence", |r, t| t.len == 0 && r.number >= 15),
    ("no tally: no bytes, answered", |r, t| t.len == 0 && r.number == 0),
    ("no tally: 9 bytes, RS485 silence", |r, t| t.len == TALLY_BYTES - 1 && r.number >= 15),
    ("no tally: 9 bytes, answered", |r, t| t.len == TALLY_BYTES - 1 && r.number == 0),
    ("just 10 bytes", |r, t| t.len == TALLY_BYTES && (r.number == 0 || r.number >= 15)),
    ("more than 10 bytes", |r, t| t.len > TALLY_BYTES && (r.number == 0 || r.number >= 15)),
    ("kept by a reset, RS485", |r, t| r.is(1) && r.frame == general_frame(Bus::Rs485, 6) && t.is_set()),
    ("kept by a reset while running", |r, t| {
        r.is(1) && r.s.running && r.frame == general_frame(Bus::Rs485, 6) && t.is_set()
    }),
    ("kept by a reset, I2C", |r, t| r.silent_i2c() && r.address == 0 && r.frame == [0x06] && t.is_set()),
    ("kept by a reset address, RS485", |r, t| r.is(1) && r.frame == general_frame(Bus::Rs485, 4) && t.is_set()),
    ("I2C no bytes answered", |r, t| {
        r.p.bus == Bus::I2c && r.number == 0 && r.frame.is_empty() && t.counters.is_some()
    }),
    ("I2C foreign not counted", |r, t| r.silent_i2c() && r.address > 127 && t.is_set()),
    ("start not counted", |r, t| {
        r.is(1) && !r.to_all() && !r.s.running && r.frame.get(1) == Some(&START) && t.is_set()
    }),
    ("refused with a tally", |r, t| (2..=5).contains(&r.number) && t.is_set()),
];

impl Received<'_> {
    /// On RS485, with this number.
    fn is(&self, number: u32) -> bool {
        self.p.bus == Bus::Rs485 && self.number == number
    }

    fn silent_i2c(&self) -> bool {
        self.p.bus == Bus::I2c && self.number == 1
    }

    fn sum_right(&self) -> bool {
        self.frame.len() >= 2 && crc16_right(self.frame)
    }

    /// Bytes over M.
    fn over_m(&self) -> i64 {
        self.frame.len() as i64 - i64::from(self.p.m)
    }

    /// Of a length that the board takes.
    fn whole(&self) -> bool {
        self.frame.len() >= 4 && self.over_m() <= 0
    }

    fn to_all(&self) -> bool {
        self.frame.first() == Some(&0)
    }

    fn to_another(&self) -> bool {
        self.frame.first().is_some_and(|&to| to != 0 && !hears(self.s, to))
    }

    fn in_default_range(&self) -> bool {
        self.s.own == Own::DefaultRange
    }

    fn is_general(&self) -> bool {
        self.frame == general_frame(Bus::Rs485, 4) || self.frame == general_frame(Bus::Rs485, 6)
    }
}

impl Lent {
    /// A tally, and not all zeros.
    fn is_set(&self) -> bool {
        self.counters.is_some_and(|counters| counters != Counters::default())
    }
}

impl Silences {
    /// A received frame; lent: by the call that counts.
    pub fn received(&mut self, r: &Received, lent: Option<&Lent>) {
        if (15..=18).contains(&r.number) {
            self.numbers[usize::from(lent.is_some())][r.number as usize - 15] += 1;
        }
        for ((_, at), count) in EDGES.iter().zip(&mut self.edges) {
            *count += u64::from(at(r));
        }
        let Some(lent) = lent else {
            return;
        };
        for ((_, at), count) in TALLY_EDGES.iter().zip(&mut self.tally_edges) {
            *count += u64::from(at(r, lent));
        }
        let k = COUNTERS.iter().position(|(_, number)| *number == r.number);
        if let (Some(k), Some(counters)) = (k, lent.counters) {
            self.counters[k].counts(counters.counters()[k]);
        }
    }

    fn happened(&self) -> Vec<(String, u64)> {
        let mut parts = Vec::new();
        for (name, numbers) in ["not counted", "counted"].iter().zip(&self.numbers) {
            parts.extend(numbers.iter().zip(15..).map(|(&n, number)| (format!("{number} {name}"), n)));
        }
        parts.extend(EDGES.iter().zip(self.edges).map(|((name, _), n)| (name.to_string(), n)));
        parts
    }

    fn tally_happened(&self) -> Vec<(String, u64)> {
        let edges = TALLY_EDGES.iter().zip(self.tally_edges).map(|((name, _), n)| (name.to_string(), n));
        let counters = COUNTERS.iter().zip(&self.counters).flat_map(|((name, _), counter)| counter.happened(name));
        edges.chain(counters).collect()
    }

    pub fn lines(&self) -> Vec<String> {
        vec![format!("silences: {}", listed(&self.happened())), format!("tally: {}", listed(&self.tally_happened()))]
    }

    /// What never happened though it can.
    pub fn missing(&self) -> Vec<String> {
        let never = |list: Vec<(String, u64)>| list.into_iter().filter(|(_, n)| *n == 0).map(|(what, _)| what);
        let silences = never(self.happened()).map(|what| format!("silences: {what}"));
        silences.chain(never(self.tally_happened()).map(|what| format!("tally: {what}"))).collect()
    }
}

impl Counter {
    /// A frame that is counted here found it so.
    fn counts(&mut self, before: u16) {
        self.stopped += u64::from(before == 65_535);
        self.rose += u64::from(before < 65_535);
        self.reached_end += u64::from(before == 65_534);
        self.carried += u64::from(before % 256 == 255 && before < 65_535);
    }

    fn happened(&self, name: &str) -> [(String, u64); 4] {
        [
            (format!("{name} rose"), self.rose),
            (format!("{name} rose to the next 256"), self.carried),
            (format!("{name} rose to 65535"), self.reached_end),
            (format!("{name} stopped at 65535"), self.stopped),
        ]
    }
}

fn listed(parts: &[(String, u64)]) -> String {
    parts.iter().map(|(what, n)| format!("{what}: {n}")).collect::<Vec<String>>().join(", ")
}
