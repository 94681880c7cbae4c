//! What happened with the profile's page (request W8): which pages and sizes were refused, commits at the ends of pages, and
//! states handed over from one page to another.

use crate::items::BoardCall;
use rules::ledger::{event, Event, Seen};
use rules::model::*;

/// A board call, from the second program's states. The state was left under the page `made_under`, if it was not given.
pub struct Called<'a> {
    pub p: &'a Profile,
    pub page_byte: u8,
    pub made_under: Option<u32>,
    pub before: &'a State,
    pub after: &'a State,
    pub call: &'a BoardCall,
    pub number: u32,
    pub reply: &'a [u8],
}

pub struct Pages {
    /// By place in `EDGES`, and by the bus of the board.
    edges: [[u64; 2]; EDGES.len()],
}

impl Default for Pages {
    fn default() -> Pages {
        Pages { edges: [[0; 2]; EDGES.len()] }
    }
}

type Edge = (&'static str, fn(&Called) -> bool);

const EDGES: [Edge; 41] = [
    ("page byte 2 refused", |c| c.wrong_page() && c.page_byte == 2),
    ("page byte 64 refused", |c| c.wrong_page() && c.page_byte == 64),
    ("page byte 128 refused", |c| c.wrong_page() && c.page_byte == 128),
    ("page byte 255 refused", |c| c.wrong_page() && c.page_byte == 255),
    ("page byte refused, counted", |c| c.wrong_page() && c.call.is_counted()),
    ("page byte refused, read", |c| c.wrong_page() && c.is_read()),
    ("S a multiple of 64 refused", |c| c.refused_128(c.p.s) && c.p.s % 128 == 64 && c.p.o % 128 == 0),
    ("O a multiple of 64 refused", |c| c.refused_128(c.p.o) && c.p.o % 128 == 64 && c.p.s % 128 == 0),
    ("S of 64 refused", |c| c.refused_128(c.p.s) && c.p.s == 64),
    ("S of 128", |c| c.ok_128() && c.p.s == 128),
    ("S of 65408", |c| c.ok_128() && c.p.s == 65_408),
    ("S of 65472 refused", |c| c.refused_128(c.p.s) && c.p.s == 65_472 && c.p.o == 0),
    ("S of 65536 refused", |c| c.number == 2 && c.p.page == 128 && c.p.s == 65_536 && c.p.o == 0),
    ("O of 65408", |c| c.ok_128() && c.p.o == 65_408),
    ("O of 65472 refused", |c| c.refused_128(c.p.o) && c.p.o == 65_472 && c.p.s == 128),
    ("O of 65536 refused", |c| c.number == 2 && c.p.page == 128 && c.p.o == 65_536 && c.p.s == 128),
    ("commit at 128", |c| c.ok_128() && c.written() > 0 && c.after.next % 128 == 0 && c.after.count > c.before.count),
    ("commit amid a write", |c| c.ok_128() && c.written() > 0 && c.after.next % 128 > 0 && c.after.count > c.before.count),
    ("commit that changed nothing", |c| c.ok_128() && c.ends_page() && c.after.count == c.before.count),
    ("no commit at 64", |c| c.ok_128() && c.written() > 0 && c.after.next % 128 == 64 && c.after.w >= 64),
    ("no commit past 64", |c| c.ok_128() && c.written() > 0 && c.before.w < 64 && c.after.w > 64 && !c.ends_page()),
    ("one byte after 127 waiting", |c| c.ok_128() && c.before.w == 127 && c.after.w == 0 && c.written() == 1),
    ("64 to 126 bytes waiting", |c| c.ok_128() && (64..127).contains(&c.after.w)),
    ("127 bytes waiting", |c| c.ok_128() && c.after.w == 127),
    ("finalize with 64 bytes or more", |c| c.ok_128() && c.finalized() && c.before.w >= 64),
    ("finalize with fewer bytes than in the page", |c| {
        c.ok_128() && c.finalized() && c.before.w > 0 && c.before.w < c.before.next % 128
    }),
    ("finalize with count 0 after accepted bytes", |c| {
        c.ok_128() && c.finalized() && c.before.w > 0 && c.after.count == 0
    }),
    ("finalize with next = S", |c| c.ok_128() && c.finalized() && c.after.next == c.p.s),
    ("64 bytes or more lost by a start", |c| {
        c.p.page == 128 && c.before.w >= 64 && !c.before.running && c.after.running
    }),
    ("w as next mod 128", |c| c.ok_128() && c.before.w > 63 && c.before.w == c.before.next % 128),
    ("w over next mod 128", |c| c.number == 4 && c.p.page == 128 && c.before.w == c.before.next % 128 + 1),
    ("w of 64 to 127 under 64", |c| c.number == 4 && c.p.page == 64 && (64..128).contains(&c.before.w)),
    ("handed to 64, malformed", |c| c.handed_to(64) && c.number == 4 && c.before.next <= c.p.s),
    ("handed to 64, malformed, counted", |c| c.handed_to(64) && c.number == 4 && c.call.is_counted()),
    ("handed to 64, malformed, read", |c| c.handed_to(64) && c.number == 4 && c.is_read()),
    ("handed to 64, finalized", |c| c.handed_to(64) && c.finalized()),
    ("handed to 64, written on", |c| c.handed_to(64) && c.written() > 0),
    ("handed to 128, finalized", |c| c.handed_to(128) && c.finalized()),
    ("handed to 128, finalized in the second half", |c| {
        c.handed_to(128) && c.finalized() && c.before.next % 128 > 64
    }),
    ("handed to 128, written on", |c| c.handed_to(128) && c.written() > 0),
    ("handed to 128, its flash read", |c| c.handed_to(128) && c.number == 0 && c.code() == Some(READ)),
];

const NAMES: [&str; 2] = ["I2C", "RS485"];

impl Called<'_> {
    fn is_read(&self) -> bool {
        matches!(self.call, BoardCall::Read { .. })
    }

    /// Refused by 2, and the page byte alone is wrong.
    fn wrong_page(&self) -> bool {
        let other = |page: u32| !profile_out_of_range(&Profile { page, ..self.p.clone() });
        self.number == 2 && self.page_byte > 1 && (other(64) || other(128))
    }

    /// Refused by 2 under 128 for a size that is a multiple of 64, and taken under 64.
    fn refused_128(&self, size: u32) -> bool {
        let taken = !profile_out_of_range(&Profile { page: 64, ..self.p.clone() });
        self.number == 2 && self.p.page == 128 && size % 128 == 64 && taken
    }

    /// Answered with OK under 128.
    fn ok_128(&self) -> bool {
        self.p.page == 128 && self.number == 0 && self.reply.get(self.front()) == Some(&OK)
    }

    /// Bytes before the status of a reply, and before the command of a frame.
    fn front(&self) -> usize {
        self.p.bus as usize
    }

    fn code(&self) -> Option<u8> {
        match self.call {
            BoardCall::Receive { frame, .. } => frame.get(self.front()).copied(),
            BoardCall::Read { .. } => None,
        }
    }

    fn event(&self) -> Event {
        match self.call {
            BoardCall::Receive { address, frame, .. } => {
                let seen = Seen::Frame { address: (*address).min(255) as u8, frame };
                event(self.p.bus, seen, self.number as u8, self.reply)
            }
            BoardCall::Read { .. } => Event::Other,
        }
    }

    /// Bytes of an accepted write that goes on where the upload stood, not at 0.
    fn written(&self) -> usize {
        match self.event() {
            Event::Write { address, data } if address > 0 => data.len(),
            _ => 0,
        }
    }

    fn ends_page(&self) -> bool {
        self.written() > 0 && self.after.next / 128 > self.before.next / 128
    }

    fn finalized(&self) -> bool {
        matches!(self.event(), Event::Finalize { .. })
    }

    /// Bytes wait in a state that the other page left.
    fn handed_to(&self, page: u32) -> bool {
        self.p.page == page && self.made_under.is_some_and(|made| made != page) && self.before.w > 0
    }
}

impl Pages {
    pub fn called(&mut self, c: &Called) {
        for ((_, at), counts) in EDGES.iter().zip(&mut self.edges) {
            counts[c.p.bus as usize] += u64::from(at(c));
        }
    }

    /// Every edge with its counts on I2C and RS485.
    pub fn lines(&self) -> Vec<String> {
        let parts = EDGES.iter().zip(&self.edges).map(|((name, _), [i2c, rs485])| format!("{name}: {i2c} {rs485}"));
        vec![format!("pages of 128, on I2C and RS485: {}", parts.collect::<Vec<String>>().join(", "))]
    }

    /// What never happened though it can.
    pub fn missing(&self) -> Vec<String> {
        let each = EDGES.iter().zip(&self.edges).flat_map(|((name, _), counts)| {
            (0..2).filter(|&bus| counts[bus] == 0).map(move |bus| format!("pages, {}: {name}", NAMES[bus]))
        });
        each.collect()
    }
}
