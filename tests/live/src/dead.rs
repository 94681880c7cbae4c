//! Calls with bytes other than 0 where the state's buffer means nothing: all of them were compared with what they were before
//! the call.

use crate::items::BoardCall;
use crate::layout::dead;
use rules::check::general_frame;
use rules::model::*;
use std::ops::Range;

/// A board call, from the second program's states and the state's buffer before it.
pub struct Compared<'a> {
    pub p: &'a Profile,
    pub before: &'a State,
    pub after: &'a State,
    pub given: &'a [u8],
    pub call: &'a BoardCall,
    pub number: u32,
}

pub struct Dead {
    /// By place in `EDGES`, and by the bus of the board.
    edges: [[u64; 2]; EDGES.len()],
}

impl Default for Dead {
    fn default() -> Dead {
        Dead { edges: [[0; 2]; EDGES.len()] }
    }
}

/// Name, the buses on which it can happen, and whether it did.
type Edge = (&'static str, &'static [Bus], fn(&Compared) -> bool);

const BOTH: &[Bus] = &[Bus::I2c, Bus::Rs485];
const I2C: &[Bus] = &[Bus::I2c];
const RS485: &[Bus] = &[Bus::Rs485];

const EDGES: [Edge; 25] = [
    // every place, after 0 and 1
    ("byte 3", BOTH, |c| c.changes() && c.set(c.byte_3())),
    ("byte 1 in the default range", BOTH, |c| c.changes() && c.set(c.own())),
    ("behind w", BOTH, |c| c.changes() && c.set(c.waiting())),
    ("just behind w", BOTH, |c| c.changes() && c.after.w > 0 && c.set(first(c.waiting()))),
    ("behind the last reply", BOTH, |c| c.changes() && c.set(c.reply())),
    ("just behind a last reply", I2C, |c| c.changes() && c.after.reply_len > 0 && c.set(first(c.reply()))),
    ("past the state", BOTH, |c| c.changes() && c.set(c.past())),
    // what was written on the way, or meant something before
    ("behind w, a page committed", BOTH, |c| c.commits() && c.after.w > 0 && c.set(c.waiting())),
    ("behind w 0, a page committed", BOTH, |c| c.commits() && c.after.w == 0 && c.set(c.waiting())),
    ("behind w, a write at 0", BOTH, |c| {
        c.number == 0 && c.after.next < c.before.next && c.lost() && c.set(c.waiting())
    }),
    ("behind w, a finalize", BOTH, |c| {
        c.number == 0 && c.after.next == c.before.next && c.lost() && c.set(c.waiting())
    }),
    ("behind w, a start", BOTH, |c| c.starts() && c.lost() && c.set(c.waiting())),
    ("behind w, a reset", BOTH, |c| c.is_general(6) && c.lost() && c.set(c.waiting())),
    ("behind a shorter reply", I2C, |c| c.changes() && c.after.reply_len > 0 && c.shorter() && c.set(c.reply())),
    ("behind no reply, a start", I2C, |c| c.starts() && c.shorter() && c.set(c.reply())),
    ("behind no reply, a reset", I2C, |c| c.is_general(6) && c.shorter() && c.set(c.reply())),
    ("behind no reply, a reset address", I2C, |c| c.is_general(4) && c.shorter() && c.set(c.reply())),
    ("reply's buffer, answered", RS485, |c| c.number == 0 && c.set(c.reply())),
    ("own address, a reset", BOTH, |c| c.is_general(6) && c.leaves_address() && c.set(c.own())),
    ("own address, a reset address", BOTH, |c| c.is_general(4) && c.leaves_address() && c.set(c.own())),
    // calls that change no byte
    ("1 without a change", BOTH, |c| c.number == 1 && c.changes() && c.before == c.after && c.any()),
    ("running", BOTH, |c| c.changes() && c.before.running && c.after.running && c.any()),
    ("15 to 18", RS485, |c| c.number >= 15 && c.any()),
    ("refused", BOTH, |c| (2..=5).contains(&c.number) && c.any()),
    ("I2C read", I2C, |c| c.is_read() && c.number == 0 && c.any()),
];

const NAMES: [&str; 2] = ["I2C", "RS485"];

fn first(place: Range<usize>) -> Range<usize> {
    place.start..place.end.min(place.start + 1)
}

impl Compared<'_> {
    fn is_read(&self) -> bool {
        matches!(self.call, BoardCall::Read { .. })
    }

    /// A received frame whose answer may change the state.
    fn changes(&self) -> bool {
        self.number < 2 && !self.is_read()
    }

    /// Bytes in this place were not 0.
    fn set(&self, place: Range<usize>) -> bool {
        self.given.get(place).is_some_and(|bytes| bytes.iter().any(|&byte| byte != 0))
    }

    /// In all places that mean nothing.
    fn any(&self) -> bool {
        self.places().into_iter().all(|place| place.is_empty() || self.set(place))
    }

    fn places(&self) -> [Range<usize>; 5] {
        dead(self.after, self.given.len())
    }

    fn byte_3(&self) -> Range<usize> {
        self.places()[0].clone()
    }

    fn own(&self) -> Range<usize> {
        self.places()[1].clone()
    }

    fn waiting(&self) -> Range<usize> {
        self.places()[2].clone()
    }

    fn reply(&self) -> Range<usize> {
        self.places()[3].clone()
    }

    fn past(&self) -> Range<usize> {
        self.places()[4].clone()
    }

    /// An accepted write that goes on over the end of a page.
    fn commits(&self) -> bool {
        let page = |s: &State| s.next / self.p.page;
        self.number == 0 && self.changes() && page(self.after) > page(self.before)
    }

    /// Bytes that waited don't any more.
    fn lost(&self) -> bool {
        self.changes() && self.after.w < self.before.w
    }

    fn shorter(&self) -> bool {
        self.changes() && self.after.reply_len < self.before.reply_len
    }

    fn starts(&self) -> bool {
        self.changes() && !self.before.running && self.after.running
    }

    fn leaves_address(&self) -> bool {
        self.before.own != Own::DefaultRange && self.after.own == Own::DefaultRange
    }

    /// The general call: 4 reset address, 6 reset.
    fn is_general(&self, code: u8) -> bool {
        match self.call {
            BoardCall::Receive { frame, .. } => self.number == 1 && *frame == general_frame(self.p.bus, code),
            BoardCall::Read { .. } => false,
        }
    }
}

impl Dead {
    pub fn compared(&mut self, c: &Compared) {
        for ((_, _, at), counts) in EDGES.iter().zip(&mut self.edges) {
            counts[c.p.bus as usize] += u64::from(at(c));
        }
    }

    /// Every edge with its counts on I2C and RS485.
    pub fn line(&self) -> String {
        let parts = EDGES.iter().zip(&self.edges).map(|((name, buses, _), counts)| {
            let count =
                |bus: Bus| if buses.contains(&bus) { counts[bus as usize].to_string() } else { "-".to_string() };
            format!("{name}: {} {}", count(Bus::I2c), count(Bus::Rs485))
        });
        let parts = parts.collect::<Vec<String>>().join(", ");
        format!("bytes that mean nothing, not 0 before a call and compared after it, on I2C and RS485: {parts}")
    }

    /// What never happened though it can.
    pub fn missing(&self) -> Vec<String> {
        let each = EDGES.iter().zip(&self.edges).flat_map(|((name, buses, _), counts)| {
            let never = buses.iter().map(|&bus| bus as usize).filter(|&bus| counts[bus] == 0);
            never.map(move |bus| format!("bytes that mean nothing, {}: {name}", NAMES[bus]))
        });
        each.collect()
    }
}
