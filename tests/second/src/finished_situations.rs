//! How often each situation came in the lists of `finished_lists`: what finished uploads were, and what stood between their first write
//! and their finalize. Nothing is judged here but that each of them came.

use crate::board::{hears, hears_i2c};
use crate::check::{demand, general_frame};
use crate::finished::{Ended, Told};
use crate::ledger::Seen;
use crate::model::*;

/// A run of so many calls in which a situation never came has shown too little.
pub const ENOUGH: u64 = 40_000;

const BOTH: [bool; 2] = [true, true];
const ON_I2C: [bool; 2] = [true, false];
const ON_RS485: [bool; 2] = [false, true];

/// A call that stands in a stretch.
struct Between<'a> {
    p: &'a Profile,
    told: &'a Told<'a>,
    /// Of a frame: its command, and whether it went to the general call, or to an address that the board hears.
    code: Option<u8>,
    general: bool,
    heard: bool,
    /// The status of its reply.
    status: Option<u8>,
}

type Place = (&'static str, [bool; 2], fn(&Between) -> bool);

/// What may stand in a stretch while bytes of it wait, and on which bus it can.
const BETWEEN: [Place; 28] = [
    ("I2C read answered", ON_I2C, |b| b.is_read() && b.told.number == 0),
    ("I2C read not answered", BOTH, |b| b.is_read() && b.told.number == 1),
    ("number 2", BOTH, |b| b.told.number == 2),
    ("number 3", BOTH, |b| b.told.number == 3),
    ("number 4", BOTH, |b| b.told.number == 4),
    ("number 5", BOTH, |b| b.told.number == 5),
    ("reset refused by 2 to 5", BOTH, |b| b.told.number > 1 && b.is_general(6)),
    ("number 15", ON_RS485, |b| b.told.number == 15),
    ("number 16", ON_RS485, |b| b.told.number == 16),
    ("number 17", ON_RS485, |b| b.told.number == 17),
    ("number 18", ON_RS485, |b| b.told.number == 18),
    ("foreign frame on I2C", ON_I2C, |b| b.told.number == 1 && !b.is_read() && !b.general && !b.heard),
    ("INVALID_TRANSFER", ON_I2C, |b| b.status == Some(INVALID_TRANSFER)),
    ("INVALID_CRC", ON_I2C, |b| b.status == Some(INVALID_CRC)),
    ("COMMAND_NOT_SUPPORTED", BOTH, |b| b.status == Some(NOT_SUPPORTED)),
    ("write refused at 0", BOTH, |b| b.refused(WRITE) && b.at() == Some(0)),
    ("write refused elsewhere", BOTH, |b| b.refused(WRITE) && b.at().is_some_and(|at| at > 0)),
    ("read of flash refused", BOTH, |b| b.refused(READ)),
    ("reserved address refused", BOTH, |b| b.refused(SET_ADDRESS)),
    ("finalize with an argument", BOTH, |b| b.refused(FINALIZE)),
    ("start with an argument", BOTH, |b| b.refused(START)),
    ("set address", BOTH, |b| b.status == Some(OK) && b.code == Some(SET_ADDRESS)),
    ("set address of another type", BOTH, |b| b.told.number == 1 && b.heard && b.code == Some(SET_ADDRESS)),
    ("reset address", BOTH, |b| b.told.number == 1 && b.is_general(4)),
    ("another general call", BOTH, |b| b.told.number == 1 && b.general && !b.is_general(4) && !b.is_general(6)),
    ("read of flash", BOTH, |b| b.status == Some(OK) && b.code == Some(READ)),
    ("another command", BOTH, |b| b.status == Some(OK) && b.code.is_some_and(|code| [0, 3, 4, 9, 12].contains(&code))),
    ("empty write at the end", BOTH, |b| b.status == Some(OK) && b.code == Some(WRITE) && b.is_empty_write()),
];

impl Between<'_> {
    fn of<'a>(p: &'a Profile, told: &'a Told<'a>) -> Between<'a> {
        let mut between = Between { p, told, code: None, general: false, heard: false, status: None };
        let skip = usize::from(p.bus == Bus::Rs485);
        if let Seen::Frame { address, frame } = told.seen {
            between.code = frame.get(skip).copied();
            let to = if p.bus == Bus::I2c { address } else { frame.first().copied().unwrap_or(0) };
            between.general = to == 0;
            between.heard = if p.bus == Bus::I2c { hears_i2c(told.state, to) } else { hears(told.state, to) };
            between.status = told.reply.get(skip).copied();
        }
        between
    }

    fn is_read(&self) -> bool {
        matches!(self.told.seen, Seen::Read { .. })
    }

    fn is_general(&self, code: u8) -> bool {
        matches!(self.told.seen, Seen::Frame { address, frame }
            if (address == 0 || self.p.bus == Bus::Rs485) && frame == general_frame(self.p.bus, code))
    }

    fn refused(&self, code: u8) -> bool {
        self.status == Some(INVALID_ARGUMENTS) && self.code == Some(code)
    }

    /// The flash address of a write, if it has one.
    fn at(&self) -> Option<usize> {
        match (self.p.bus, self.told.seen) {
            (Bus::I2c, Seen::Frame { frame: [_, high, low, _, ..], .. }) => Some(usize::from(*high) << 8 | usize::from(*low)),
            (Bus::Rs485, Seen::Frame { frame: [_, _, high, low, _, _, ..], .. }) => Some(usize::from(*high) << 8 | usize::from(*low)),
            _ => None,
        }
    }

    fn is_empty_write(&self) -> bool {
        let Seen::Frame { frame, .. } = self.told.seen else {
            return false;
        };
        self.at().is_some_and(|at| at > 0) && frame.len() == if self.p.bus == Bus::I2c { 4 } else { 6 }
    }
}

/// A stretch with the finalize that ends it.
struct Stretch<'a> {
    e: &'a Ended<'a>,
    last: &'a Told<'a>,
    changed: usize,
    /// The count that was told.
    count: usize,
    /// Pages that hold bytes of the image; bytes of the last of them.
    touched: usize,
    in_last: usize,
}

type Kind = (&'static str, [bool; 2], fn(&Stretch) -> bool);

/// What a stretch may be.
const STRETCHES: [Kind; 35] = [
    ("page 64", BOTH, |s| s.e.p.page == 64),
    ("page 128", BOTH, |s| s.e.p.page == 128),
    ("O over 0", BOTH, |s| s.e.p.o > 0),
    ("flash behind S", BOTH, |s| s.e.old.len() > (s.e.p.o + s.e.p.s) as usize),
    ("fresh start", BOTH, |s| *s.e.start == State::fresh()),
    ("start within another upload", BOTH, |s| s.e.start.next > 0),
    ("start with bytes waiting", BOTH, |s| s.e.start.w > 0),
    ("start with a count", BOTH, |s| s.e.start.count > 0),
    ("start with an own address", BOTH, |s| s.e.start.own != Own::DefaultRange),
    ("start with a last reply", ON_I2C, |s| s.e.start.reply_len > 0),
    ("image of no bytes", BOTH, |s| s.e.image.is_empty()),
    ("image of one byte", BOTH, |s| s.e.image.len() == 1),
    ("image to a page end", BOTH, |s| s.touched > 0 && s.in_last == s.e.p.page as usize),
    ("image to one byte before a page end", BOTH, |s| s.in_last + 1 == s.e.p.page as usize),
    ("image to one byte behind a page end", BOTH, |s| s.touched > 1 && s.in_last == 1),
    ("image of S bytes", BOTH, |s| s.e.image.len() == s.e.p.s as usize),
    ("image over three pages", BOTH, |s| s.touched > 2),
    ("one write", BOTH, |s| s.e.writes == 1),
    ("several writes", BOTH, |s| s.e.writes > 3),
    ("empty write at 0 again", BOTH, |s| s.e.times > 1),
    ("finalize with nothing waiting", BOTH, |s| s.last.state.w == 0 && s.touched > 0),
    ("finalize with bytes waiting", BOTH, |s| s.last.state.w > 0),
    ("earlier finalize with nothing waiting", BOTH, |s| s.e.found[0] > 0 && s.e.counted() && s.touched > 0),
    ("earlier finalize with nothing waiting, and a later page changed", BOTH, |s| {
        s.e.found[0] > 0 && s.e.counted() && s.last.state.w > 0 && s.count > 1
    }),
    ("earlier finalize with bytes waiting", BOTH, |s| !s.e.counted()),
    ("earlier finalize with bytes waiting, and another count", BOTH, |s| !s.e.counted() && s.count != s.changed),
    ("both kinds of earlier finalize", BOTH, |s| !s.e.counted() && s.e.found[0] > 0),
    ("count 0 of an image", BOTH, |s| s.e.counted() && s.touched > 0 && s.count == 0),
    ("count 1", BOTH, |s| s.e.counted() && s.count == 1),
    ("count over 1", BOTH, |s| s.e.counted() && s.count > 1),
    ("count over 255", BOTH, |s| s.e.counted() && s.count > 255),
    ("all of several pages changed", BOTH, |s| s.e.counted() && s.count > 1 && s.count == s.touched),
    ("some of several pages changed", BOTH, |s| s.e.counted() && s.count > 0 && s.count < s.touched),
    ("other bytes than 0xFF behind the image", BOTH, |s| s.behind().iter().any(|&byte| byte != 0xff)),
    ("other bytes than 0xFF behind the image, and count 0", BOTH, |s| s.count == 0 && s.behind().iter().any(|&byte| byte != 0xff)),
];

impl Stretch<'_> {
    fn of<'a>(e: &'a Ended<'a>, last: &'a Told<'a>) -> Stretch<'a> {
        let page = e.p.page as usize;
        let count = e.results.iter().fold(0, |sum, &byte| sum << 8 | usize::from(byte));
        let touched = e.image.len().div_ceil(page);
        let in_last = e.image.len() - page * touched.saturating_sub(1);
        Stretch { e, last, changed: e.changed(), count, touched, in_last }
    }

    /// The old bytes behind the image in its last page.
    fn behind(&self) -> &[u8] {
        let first = self.e.p.o as usize;
        &self.e.old[first + self.e.image.len()..first + self.touched * self.e.p.page as usize]
    }
}

/// What may happen outside of stretches.
const OUTSIDE: [&str; 3] =
    ["finalize in no stretch", "finalize in no stretch after a reset that lost bytes", "finalize sent after a start"];

pub struct Situations {
    pub calls: u64,
    stretches: u64,
    counted: u64,
    /// By place in the tables, and by bus.
    stretch: [[u64; 2]; STRETCHES.len()],
    between: [[u64; 2]; BETWEEN.len()],
    outside: [[u64; 2]; OUTSIDE.len()],
    /// In the list at hand: its calls; which of them was the last of each kind in `BETWEEN`; whether the last reset lost bytes and no
    /// write was accepted since.
    here: u64,
    last: [u64; BETWEEN.len()],
    lost: bool,
}

impl Default for Situations {
    fn default() -> Situations {
        Situations {
            calls: 0,
            stretches: 0,
            counted: 0,
            stretch: [[0; 2]; STRETCHES.len()],
            between: [[0; 2]; BETWEEN.len()],
            outside: [[0; 2]; OUTSIDE.len()],
            here: 0,
            last: [0; BETWEEN.len()],
            lost: false,
        }
    }
}

impl Situations {
    /// Another list.
    pub fn begin(&mut self) {
        self.here = 0;
        self.last = [0; BETWEEN.len()];
        self.lost = false;
    }

    /// A call, and the stretches that ended with it.
    pub fn called(&mut self, p: &Profile, told: &Told, ended: &[Ended]) {
        self.calls += 1;
        self.here += 1;
        let call = Between::of(p, told);
        if told.state.w > 0 {
            for ((_, _, is), last) in BETWEEN.iter().zip(&mut self.last) {
                if is(&call) {
                    *last = self.here;
                }
            }
        }
        let bus = p.bus as usize;
        for e in ended {
            self.ended(bus, &Stretch::of(e, told));
        }
        self.outside(bus, &call, ended.is_empty());
    }

    fn ended(&mut self, bus: usize, s: &Stretch) {
        self.stretches += s.e.times;
        self.counted += if s.e.counted() { s.e.times } else { 0 };
        for ((_, _, is), count) in STRETCHES.iter().zip(&mut self.stretch) {
            count[bus] += u64::from(is(s));
        }
        for (last, count) in self.last.iter().zip(&mut self.between) {
            count[bus] += u64::from(*last > s.e.first);
        }
    }

    fn outside(&mut self, bus: usize, call: &Between, none_ended: bool) {
        let (number, code, ok) = (call.told.number, call.code, call.status == Some(OK));
        if number == 1 && call.is_general(6) {
            self.lost = call.told.state.w > 0;
        }
        self.lost &= !(ok && code == Some(WRITE));
        let finalized = ok && code == Some(FINALIZE) && none_ended;
        let after_start = call.told.state.running && call.heard && code == Some(FINALIZE);
        for (count, is) in self.outside.iter_mut().zip([finalized, finalized && self.lost, after_start]) {
            count[bus] += u64::from(is);
        }
    }

    /// Each situation on each bus where it can come, and how often it came.
    fn all(&self) -> Vec<(String, u64)> {
        let stretches = STRETCHES.iter().map(|(name, on, _)| (name, on)).zip(&self.stretch);
        let between = BETWEEN.iter().map(|(name, on, _)| (name, on)).zip(&self.between);
        let outside = OUTSIDE.iter().map(|name| (name, &BOTH)).zip(&self.outside);
        let mut all = Vec::new();
        for ((name, on), counts) in stretches.chain(between).chain(outside) {
            for (bus, count) in counts.iter().enumerate().filter(|(bus, _)| on[*bus]) {
                all.push((format!("{name} ({})", ["I2C", "RS485"][bus]), *count));
            }
        }
        all
    }

    /// A line; an error if something never came in a run of `asked` calls that should have shown it.
    pub fn report(&self, asked: u64) -> Result<String, String> {
        let all = self.all();
        let missing: Vec<&str> = all.iter().filter(|(_, count)| *count == 0).map(|(name, _)| name.as_str()).collect();
        demand(asked < ENOUGH || missing.is_empty(), &format!("finished uploads: never came: {}", missing.join(", ")))?;
        let (rarest, least) = all.iter().min_by_key(|(_, count)| *count).cloned().unwrap_or_default();
        Ok(format!(
            "finished uploads: {} calls, {} stretches from a write at 0 to a finalize, {} of them with their count; {} situations, \
             the rarest came {least} times: {rarest}",
            self.calls,
            self.stretches,
            self.counted,
            all.len()
        ))
    }
}
