//! Finished uploads on the library: what they leave (`rules::finished`), checked on the library's own answers, state bytes and flash.
//! Nothing is compared with the second program's board here.

use crate::layout::{profile_bytes, state_bytes, state_of, TALLY_BYTES};
use crate::library::{self, Lent};
use rules::finished_lists::{Failure, Target};
use rules::ledger::Seen;
use rules::model::{Profile, State};
use rules::script::UNTOUCHED;

/// A board whose state and flash only the library writes.
pub struct Library {
    state: Lent,
    flash: Lent,
    tally: Lent,
    calls: u64,
}

impl Target for Library {
    fn new(_: &Profile, s: &State, flash: &[u8]) -> Library {
        let (state, flash) = (Lent::new(&state_bytes(s)), Lent::new(flash));
        Library { state, flash, tally: Lent::new(&[0; TALLY_BYTES]), calls: 0 }
    }

    fn call(&mut self, p: &Profile, lent: usize, room: usize, seen: Seen) -> Result<(u32, Vec<u8>), String> {
        if lent < self.flash.bytes().len() {
            return self.with_less_flash(p, lent, room, seen);
        }
        self.calls += 1;
        let profile = Lent::new(&profile_bytes(p));
        let mut out = Lent::new(&vec![UNTOUCHED; room]);
        let (state, flash) = (&mut self.state, &mut self.flash);
        let (number, made) = match seen {
            Seen::Read { address } => library::read(&profile, state, address.into(), flash, &mut out),
            // every second frame is counted
            Seen::Frame { address, frame } if self.calls % 2 == 0 => {
                library::receive_tally(&profile, state, address.into(), &Lent::new(frame), flash, &mut out, &mut self.tally)
            }
            Seen::Frame { address, frame } => library::receive(&profile, state, address.into(), &Lent::new(frame), flash, &mut out),
        };
        if ![&self.state, &self.flash, &self.tally, &profile, &out].iter().all(|lent| lent.guarded()) {
            return Err("bytes outside a buffer were written".to_string());
        }
        let reply = out.bytes().get(..made).ok_or("more bytes were made than lent")?;
        Ok((number, reply.to_vec()))
    }

    fn state(&self) -> Result<State, String> {
        state_of(self.state.bytes()).ok_or("the state's bytes say no state".to_string())
    }

    fn flash(&self) -> &[u8] {
        self.flash.bytes()
    }
}

impl Library {
    /// The call on the flash's first bytes alone; the rest stands behind them again after it.
    fn with_less_flash(&mut self, p: &Profile, lent: usize, room: usize, seen: Seen) -> Result<(u32, Vec<u8>), String> {
        let whole = self.flash.bytes().to_vec();
        self.flash = Lent::new(&whole[..lent]);
        let answer = self.call(p, lent, room, seen);
        self.flash = Lent::new(&[self.flash.bytes(), &whole[lent..]].concat());
        answer
    }
}

/// The list of a failure and what failed, as comments.
pub fn show(seed: u64, failure: &Failure) {
    println!("# difference: uploads, seed {seed}, list {}", failure.list);
    for line in &failure.lines {
        println!("# {line}");
    }
    println!("# differs  finished upload: {}", failure.what);
}
