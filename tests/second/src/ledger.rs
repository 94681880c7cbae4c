//! The ledger: the witness of demand 3.
//!
//! It gets the profile and each frame or read with the answer, but no
//! state or flash of the board. It shares no rule with the board: it has its
//! own reading of frames and its own commit.

use crate::model::{Bus, Profile};

/// One call as the ledger sees it.
#[derive(Clone, Copy, Debug)]
pub enum Seen<'a> {
    Frame { address: u8, frame: &'a [u8] },
    Read { address: u8 },
}

/// What a call means to the ledger.
#[derive(Clone, Debug, PartialEq, Eq)]
pub enum Event {
    Reset,
    Write { address: usize, data: Vec<u8> },
    Finalize { told: u64 },
    Other,
}

#[derive(Clone, Debug, PartialEq, Eq)]
pub struct Ledger {
    /// The flash copy.
    pub copy: Vec<u8>,
    /// The earlier copy, taken at the last reset or write at 0.
    pub earlier: Vec<u8>,
    pub accepted: Vec<u8>,
    pub committed: usize,
    pub count: u64,
    /// Finalizes that committed something.
    pub f: u64,
}

impl Ledger {
    pub fn new(flash: &[u8]) -> Ledger {
        Ledger {
            copy: flash.to_vec(),
            earlier: flash.to_vec(),
            accepted: Vec::new(),
            committed: 0,
            count: 0,
            f: 0,
        }
    }

    /// Enter one call with its number and reply.
    pub fn enter(&mut self, p: &Profile, seen: Seen, number: u8, reply: &[u8]) -> Event {
        let event = event(p.bus, seen, number, reply);
        match &event {
            Event::Reset => self.begin(),
            Event::Write { address, data } => self.write(p, *address, data),
            Event::Finalize { .. } => self.finalize(p),
            Event::Other => {}
        }
        event
    }

    fn begin(&mut self) {
        self.earlier = self.copy.clone();
        self.accepted.clear();
        self.committed = 0;
        self.count = 0;
        self.f = 0;
    }

    fn write(&mut self, p: &Profile, address: usize, data: &[u8]) {
        if address == 0 {
            self.begin();
        }
        for &byte in data {
            self.accepted.push(byte);
            // a page of 0 bytes, which no board answers under, never ends
            if self.accepted.len().checked_rem(p.page as usize) == Some(0) {
                self.commit(p);
            }
        }
    }

    fn finalize(&mut self, p: &Profile) {
        if self.committed < self.accepted.len() {
            self.f += 1;
            self.commit(p);
        }
    }

    fn commit(&mut self, p: &Profile) {
        let mut changed = false;
        for place in self.committed..self.accepted.len() {
            let byte = self.accepted[place];
            if let Some(old) = self.copy.get_mut(p.o as usize + place) {
                changed |= *old != byte;
                *old = byte;
            }
        }
        if changed {
            self.count += 1;
        }
        self.committed = self.accepted.len();
    }
}

/// What a call means, from frame, address, number and reply alone.
pub fn event(bus: Bus, seen: Seen, number: u8, reply: &[u8]) -> Event {
    let Seen::Frame { address, frame } = seen else {
        return Event::Other;
    };
    let reset = match bus {
        Bus::I2c => address == 0 && frame == [0x06],
        Bus::Rs485 => frame == [0x00, 0x46, 0x80, 0x42],
    };
    if reset && number == 1 {
        return Event::Reset;
    }
    let (skip, tail) = match bus {
        Bus::I2c => (0, 1),
        Bus::Rs485 => (1, 2),
    };
    if number != 0 || reply.get(skip) != Some(&0) || frame.len() < skip + 1 + tail {
        return Event::Other;
    }
    let args = &frame[skip + 1..frame.len() - tail];
    match (frame[skip], args) {
        (0x06, [high, low, data @ ..]) => Event::Write {
            address: usize::from(*high) << 8 | usize::from(*low),
            data: data.to_vec(),
        },
        (0x07, _) => Event::Finalize { told: told(reply.get(skip + 2..).unwrap_or(&[])) },
        _ => Event::Other,
    }
}

/// The count that a finalize's reply tells.
fn told(results: &[u8]) -> u64 {
    match results {
        [high, low, ..] => u64::from(*high) << 8 | u64::from(*low),
        _ => u64::MAX,
    }
}
