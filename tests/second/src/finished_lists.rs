//! Random lists of calls for `finished`: uploads from any well-formed state, cut into pieces, over flash that is the image, is it in part
//! or is another, with all other calls in between. The board is the second program's own, or another one behind `Target`.

use crate::board;
use crate::check::{demand, framed, general_frame, paged_profile, some_new_address, write_frame};
use crate::finished::{Ended, Finished, Told};
use crate::finished_situations::Situations;
use crate::ledger::Seen;
use crate::model::*;
use crate::rng::Rng;
use crate::script::{hex, packed};
use crate::silences::silent_frame;

/// A board with its state and its lent flash.
pub trait Target {
    fn new(p: &Profile, s: &State, flash: &[u8]) -> Self;
    /// A call that is lent this profile, the first `lent` bytes of the flash and `room` bytes of output; its number and reply.
    fn call(&mut self, p: &Profile, lent: usize, room: usize, seen: Seen) -> Result<(u32, Vec<u8>), String>;
    fn state(&self) -> Result<State, String>;
    fn flash(&self) -> &[u8];
}

/// The second program's board.
struct SecondBoard {
    s: State,
    flash: Vec<u8>,
}

impl Target for SecondBoard {
    fn new(_: &Profile, s: &State, flash: &[u8]) -> SecondBoard {
        SecondBoard { s: s.clone(), flash: flash.to_vec() }
    }

    fn call(&mut self, p: &Profile, lent: usize, room: usize, seen: Seen) -> Result<(u32, Vec<u8>), String> {
        let mut out = vec![0; room];
        let flash = &mut self.flash[..lent];
        let answer = match seen {
            Seen::Frame { address, frame } => board::receive(p, &mut self.s, flash, &mut out, address, frame),
            Seen::Read { address } => board::read(p, &self.s, flash, &mut out, address),
        };
        out.truncate(answer.len);
        Ok((u32::from(answer.number), out))
    }

    fn state(&self) -> Result<State, String> {
        Ok(self.s.clone())
    }

    fn flash(&self) -> &[u8] {
        &self.flash
    }
}

/// A call to make: a frame, or with none an I2C read. `refused` is the number of 2 to 5 that what is lent to it makes.
#[derive(Clone)]
struct Sent {
    address: u8,
    frame: Option<Vec<u8>>,
    refused: Option<u32>,
}

impl Sent {
    fn frame(address: u8, frame: Vec<u8>) -> Sent {
        Sent { address, frame: Some(frame), refused: None }
    }

    fn seen(&self) -> Seen<'_> {
        let address = self.address;
        match &self.frame {
            Some(frame) => Seen::Frame { address, frame },
            None => Seen::Read { address },
        }
    }

    fn text(&self) -> String {
        let call = match &self.frame {
            Some(frame) => format!("R {} {}", self.address, hex(frame)),
            None => format!("I {}", self.address),
        };
        self.refused.map_or(call.clone(), |number| format!("{call} (lent what makes it {number})"))
    }
}

/// What failed, the list that it failed in, and that list in words.
pub struct Failure {
    pub what: String,
    pub list: u64,
    pub lines: Vec<String>,
}

/// Who sends: the profile, the image of the upload, and whether its write at 0 was accepted since the last reset.
struct Sender {
    p: Profile,
    image: Vec<u8>,
    begun: bool,
    /// A large image: sent in long pieces, with little in between and nothing that ends the upload.
    large: bool,
}

impl Sender {
    fn most(&self) -> usize {
        self.p.m as usize - if self.p.bus == Bus::I2c { 4 } else { 6 }
    }

    fn to(&self, rng: &mut Rng, s: &State) -> u8 {
        match s.own {
            Own::DefaultRange => 8 + rng.byte() % 8,
            Own::Address(own) => own,
        }
    }

    fn command(&self, to: u8, code: u8, args: &[u8]) -> Sent {
        Sent::frame(to, framed(self.p.bus, to, code, args))
    }

    fn write(&self, to: u8, at: usize, data: &[u8]) -> Sent {
        Sent::frame(to, write_frame(self.p.bus, to, at as u64, data))
    }

    fn general(&self, code: u8) -> Sent {
        Sent::frame(0, general_frame(self.p.bus, code))
    }

    /// The next call.
    fn next(&mut self, rng: &mut Rng, s: &State, flash: &[u8]) -> Sent {
        let to = self.to(rng, s);
        if s.running {
            return match rng.below(4) {
                0 => self.command(to, FINALIZE, &[]),
                1 => self.between(rng, s, to),
                _ => self.general(6),
            };
        }
        if self.large {
            return if rng.percent(8) { self.between(rng, s, to) } else { self.go_on(rng, s, to, flash) };
        }
        let at_page_end = s.next % self.p.page == 0;
        match rng.below(100) {
            0..=49 => self.go_on(rng, s, to, flash),
            50..=53 => self.command(to, FINALIZE, &[]),
            54..=60 if at_page_end => self.command(to, FINALIZE, &[]),
            61..=63 => self.begin(rng, to, flash),
            64 => self.general(6),
            65 if rng.percent(50) => self.command(to, START, &[]),
            _ => self.between(rng, s, to),
        }
    }

    /// The upload's next write, or its finalize. A state that is in another upload may first go on with that.
    fn go_on(&mut self, rng: &mut Rng, s: &State, to: u8, flash: &[u8]) -> Sent {
        let next = s.next as usize;
        if !self.begun {
            return match rng.below(10) {
                0 if next < self.p.s as usize => self.write(to, next, &[0x77]),
                1..=3 if !self.large => self.command(to, FINALIZE, &[]),
                _ => self.begin(rng, to, flash),
            };
        }
        if next < self.image.len() {
            let data = self.piece(rng, next);
            return self.write(to, next, &data);
        }
        match rng.below(if self.large { 5 } else { 10 }) {
            0..=4 => self.command(to, FINALIZE, &[]),
            5 => self.write(to, next, &[]),
            6 | 7 => {
                let left = u64::from(self.p.s.saturating_sub(s.next));
                let more = rng.below(left + 1).min(90) as usize;
                self.image.extend(rng.bytes(more));
                let data = self.piece(rng, next);
                self.write(to, next, &data)
            }
            _ => self.begin(rng, to, flash),
        }
    }

    /// The write at 0, often of a new image.
    fn begin(&mut self, rng: &mut Rng, to: u8, flash: &[u8]) -> Sent {
        if rng.percent(60) {
            self.image = some_image(rng, &self.p, flash, self.large);
        }
        let data = self.piece(rng, 0);
        self.write(to, 0, &data)
    }

    /// The image's bytes from a place on: none, one, as many as a frame holds, or up to or near a page end.
    fn piece(&self, rng: &mut Rng, at: usize) -> Vec<u8> {
        let most = self.most();
        let to_end = self.p.page as usize - at % self.p.page as usize;
        let any = rng.below(most as u64 + 1) as usize;
        let len = match rng.below(if self.large { 2 } else { 12 }) {
            0..=3 => most,
            4 => 0,
            5 => 1,
            6 | 7 => to_end,
            8 => to_end - 1,
            9 => to_end + 1,
            _ => any,
        };
        self.image.iter().copied().skip(at).take(len.min(most)).collect()
    }

    /// A call that leaves the upload as it is. (Some of `silent_frame` are heard: they may be a write at 0 or a reset.)
    fn between(&mut self, rng: &mut Rng, s: &State, to: u8) -> Sent {
        let (bus, size, next) = (self.p.bus, self.p.s as usize, s.next as usize);
        let (most, left) = (self.most(), size.saturating_sub(next));
        match rng.below(27) {
            0 | 1 => Sent { address: to, frame: None, refused: None },
            2 => Sent { address: rng.of(&[0, 7, 16, 127, 200, u64::from(to ^ 1)]) as u8, frame: None, refused: None },
            3 => {
                let length = rng.below(28).min(size as u64);
                let [high, low] = (rng.below((size - length as usize) as u64 + 1) as u16).to_be_bytes();
                self.command(to, READ, &[high, low, length as u8])
            }
            4 => {
                let [high, low] = (size as u16).to_be_bytes();
                self.command(to, READ, &[high, low, 1 + rng.byte() % 20])
            }
            5 | 6 => {
                let other = match s.own {
                    Own::DefaultRange => rng.of(&[7, 16, 17, 100]) as u8,
                    Own::Address(own) => own ^ rng.of(&[1, 8, 64]) as u8,
                };
                match rng.below(3) {
                    0 => self.command(other, FINALIZE, &[]),
                    1 => self.command(other, START, &[]),
                    _ => self.write(other, 0, &[0x55; 9]),
                }
            }
            7..=9 => self.damaged(rng, s, to),
            10 => Sent::frame(to, silent_frame(rng, &self.p, to)),
            11 => Sent::frame(to, framed(bus, to, VERSION, &[])[..rng.below(2) as usize].to_vec()),
            12 => {
                let rest = if bus == Bus::I2c { 2 } else { 4 };
                let length = self.p.m as usize - rest + 1 + rng.below(3) as usize;
                Sent::frame(to, framed(bus, to, WRITE, &vec![0; length]))
            }
            // one byte too many at 0 and at next, where a frame holds so many
            13 | 14 if most > size => self.write(to, 0, &vec![0x66; size + 1]),
            15 if most > left => self.write(to, next, &vec![0x66; left + 1]),
            13..=15 => self.write(to, next + 1, &[0x66; 3]),
            16 => self.write(to, if next > 1 { next - 1 } else { next + 2 }, &[0x66; 2]),
            17 => self.command(to, SET_ADDRESS, &[if bus == Bus::I2c { 3 } else { 250 }, 0]),
            18 => self.command(to, SET_ADDRESS, &[20, 77]),
            19 => {
                let hardware = rng.of(&[0, u64::from(self.p.hardware)]) as u8;
                self.command(to, SET_ADDRESS, &[some_new_address(rng, bus), hardware])
            }
            20 => self.general(4),
            21 => {
                let code = rng.of(&[6, 7, 5, 0]) as u8;
                Sent::frame(0, framed(bus, 0, code, &[0, 0, 0x44][..rng.below(4) as usize]))
            }
            22 => self.command(to, rng.of(&[0x02, 0x0a, 0x0b, 0x0d, 0x0e, 0x0f, 0x87, 0xff]) as u8, &[]),
            23 => self.command(to, rng.of(&[0x00, 0x03, 0x04, 0x09, 0x0c]) as u8, &[]),
            24 => self.command(to, rng.of(&[0x05, 0x05, 0x07, 0x07, 0x06, 0x0c]) as u8, &[0]),
            _ => self.refused(rng, s, to),
        }
    }

    /// A frame of the upload with one bit changed.
    fn damaged(&mut self, rng: &mut Rng, s: &State, to: u8) -> Sent {
        let mut sent = match rng.below(4) {
            0 => self.command(to, FINALIZE, &[]),
            1 => self.write(to, 0, &[0x99; 5]),
            2 => self.command(to, START, &[]),
            _ => self.write(to, s.next as usize, &[0x99; 5]),
        };
        if let Some(frame) = &mut sent.frame {
            let k = rng.below(frame.len() as u64) as usize;
            frame[k] ^= 1 << rng.below(8);
        }
        sent
    }

    /// A call that would change the upload, but for what is lent to it.
    fn refused(&self, rng: &mut Rng, s: &State, to: u8) -> Sent {
        let sent = match rng.below(5) {
            0 => self.command(to, FINALIZE, &[]),
            1 => self.write(to, 0, &[0x88; 7]),
            2 => self.general(6),
            3 => self.command(to, START, &[]),
            _ => self.write(to, s.next as usize, &[0x88]),
        };
        let malformed = state_malformed(&self.smaller(), s);
        let number = match rng.below(6) {
            0 => 2,
            1 => 3,
            2..=4 if malformed => 4,
            _ => 5,
        };
        Sent { refused: Some(number), ..sent }
    }

    /// The profile with a working flash of one page: the state may be malformed under it.
    fn smaller(&self) -> Profile {
        Profile { s: self.p.page, ..self.p.clone() }
    }

    /// What is lent to a call: profile, bytes of flash, room.
    fn lent(&self, refused: Option<u32>, flash: usize) -> (Profile, usize, usize) {
        let (p, room) = (self.p.clone(), self.p.m as usize);
        match refused {
            Some(2) => (Profile { hardware: 0, ..p }, flash, room),
            Some(3) => (p, (self.p.o + self.p.s) as usize - 1, room),
            Some(4) => (self.smaller(), flash, room),
            Some(_) => (p, flash, room - 1),
            None => (p, flash, room),
        }
    }

    /// What an answer tells the sender.
    fn after(&mut self, sent: &Sent, number: u32, reply: &[u8]) {
        let Some(frame) = &sent.frame else {
            return;
        };
        if number == 1 && *frame == general_frame(self.p.bus, 6) {
            self.begun = false;
        }
        let skip = usize::from(self.p.bus == Bus::Rs485);
        let at_0 = frame.get(skip..).is_some_and(|rest| rest.starts_with(&[WRITE, 0, 0]));
        self.begun |= at_0 && reply.get(skip) == Some(&OK);
    }
}

/// A length at or near a page end, all of S, none, or any.
fn some_length(rng: &mut Rng, p: &Profile) -> usize {
    let (page, size) = (u64::from(p.page), u64::from(p.s));
    let end = page * rng.below(size / page + 1);
    let any = rng.below(size + 1);
    let length = rng.of(&[0, 1, end, end, end + 1, end.saturating_sub(1), size, size - 1, any, any, any]);
    length.min(size) as usize
}

/// Bytes for the front of the working flash: those that stand there, some of them changed, or others.
fn some_image(rng: &mut Rng, p: &Profile, flash: &[u8], large: bool) -> Vec<u8> {
    let length = if large { p.s as usize } else { some_length(rng, p) };
    let mut image: Vec<u8> = flash.iter().copied().skip(p.o as usize).take(length).collect();
    match if large { 0 } else { rng.below(8) } {
        0 => image.iter_mut().for_each(|byte| *byte ^= 0x41),
        1 => {}
        2 => image.fill(0xff),
        3 | 4 => {
            for page in image.chunks_mut(p.page as usize) {
                if let (true, Some(byte)) = (rng.percent(50), page.last_mut()) {
                    *byte ^= 0x10;
                }
            }
        }
        5 => {
            if let Some(byte) = image.first_mut() {
                *byte ^= 0x01;
            }
        }
        _ => image = rng.bytes(length),
    }
    image
}

/// Any well-formed state, most of them in the middle of another upload.
fn some_state(rng: &mut Rng, p: &Profile) -> State {
    if rng.percent(20) {
        return State::fresh();
    }
    let mut s = State::fresh();
    if rng.percent(50) {
        s.own = Own::Address(if rng.percent(95) { 8 + rng.below(112) as u8 } else { rng.byte() });
    }
    s.running = rng.percent(4);
    s.next = rng.below(u64::from(p.s) + 1) as u32;
    s.w = if rng.percent(30) { 0 } else { rng.below(u64::from(s.next % p.page) + 1) as u32 };
    s.count = if rng.percent(30) { 0 } else { rng.below(u64::from(s.next - s.w) + 1) as u32 };
    if p.bus == Bus::I2c {
        s.reply_len = rng.below(u64::from(p.m) + 1) as u32;
    }
    s.waiting.copy_from_slice(&rng.bytes(MOST_PAGE));
    s.reply.copy_from_slice(&rng.bytes(256));
    s
}

/// Both buses and pages. Every 64th list has a working flash of over 255 pages.
fn some_profile(rng: &mut Rng, k: u64) -> (Profile, bool) {
    let large = k % 64 == 5;
    let bus = if (k / 64 + k) % 2 == 0 { Bus::I2c } else { Bus::Rs485 };
    let page = rng.of(&PAGES.map(u64::from)) as u32;
    let most = MOST_S / u64::from(page);
    let (m, s, o) = if large {
        (256, rng.of(&[256, 257, 300, most]), rng.of(&[0, 1, 2, most]))
    } else {
        (rng.of(&[32, 33, 40, 64, 100, 255, 256, 256]), rng.of(&[1, 1, 2, 3, 4, 6]), rng.below(4))
    };
    (paged_profile(bus, m as u32, page, page * s as u32, page * o as u32), large)
}

fn some_flash(rng: &mut Rng, p: &Profile) -> Vec<u8> {
    let length = (p.o + p.s) as usize + rng.of(&[0, 1, 64, 200]) as usize;
    if rng.percent(35) {
        return vec![0xff; length];
    }
    rng.bytes(length)
}

/// Lines of FORMAT.md.
fn profile_text(p: &Profile) -> String {
    let Profile { bus, m, page, s, o, hardware, compatible, actual, version, serial } = p;
    format!("P {} {m} {page} {s} {o} {hardware} {compatible} {actual} {version} {}", *bus as u8, hex(serial))
}

fn state_text(s: &State) -> String {
    let own = match s.own {
        Own::DefaultRange => 256,
        Own::Address(own) => u32::from(own),
    };
    let numbers = format!("{own} {} {} {} {} {}", u8::from(s.running), s.next, s.w, s.count, s.reply_len);
    format!("S {numbers} {} {}", hex(&s.waiting), hex(&s.reply))
}

/// One list on a board, checked call by call.
struct List<T> {
    target: T,
    sender: Sender,
    finished: Finished,
    lines: Vec<Sent>,
}

impl<T: Target> List<T> {
    fn step(&mut self, rng: &mut Rng, came: &mut Situations) -> Result<(), String> {
        let state = self.target.state()?;
        let before = self.target.flash().to_vec();
        let sent = self.sender.next(rng, &state, &before);
        self.lines.push(sent.clone());
        let (p, lent, room) = self.sender.lent(sent.refused, before.len());
        let (number, reply) = self.target.call(&p, lent, room, sent.seen())?;
        let after = self.target.flash();
        let told = Told { seen: sent.seen(), number, reply: &reply, state: &state, before: &before, after };
        let ended = self.finished.enter(&told)?;
        for stretch in &ended {
            altered(rng, stretch, after)?;
        }
        came.called(&self.sender.p, &told, &ended);
        self.sender.after(&sent, number, &reply);
        if self.target.state()?.running {
            self.answered_while_running(&state)?;
        }
        Ok(())
    }

    /// The check itself: after a start a finalize that is answered is a fault, even if the state doesn't tell.
    fn answered_while_running(&self, before: &State) -> Result<(), String> {
        let bus = self.sender.p.bus;
        let frame = framed(bus, 8, FINALIZE, &[]);
        let reply: &[u8] = if bus == Bus::I2c { &[0, 2, 0, 0, 7] } else { &[8, 0, 2, 0, 0, 0, 0] };
        let state = State { running: false, ..before.clone() };
        let flash = self.target.flash();
        let seen = Seen::Frame { address: 8, frame: &frame };
        let told = Told { seen, number: 0, reply, state: &state, before: flash, after: flash };
        demand(self.finished.clone().enter(&told).is_err(), "the check takes a finalize that is answered after a start")
    }
}

/// The check itself: another byte anywhere in the flash, and one more or one less told, are faults.
fn altered(rng: &mut Rng, stretch: &Ended, now: &[u8]) -> Result<(), String> {
    let (first, end) = (stretch.p.o as usize, stretch.p.o as usize + stretch.image.len());
    let near = [0, first as u64, first as u64 + rng.below(1 + stretch.image.len() as u64), end as u64, now.len() as u64 - 1];
    let any = rng.below(now.len() as u64);
    let place = if rng.percent(60) { rng.of(&near).min(now.len() as u64 - 1) } else { any } as usize;
    let mut other = now.to_vec();
    other[place] ^= 1 << rng.below(8);
    let noticed = stretch.fault(&other, stretch.results).is_some_and(|text| text.starts_with("(a)"));
    demand(noticed, &format!("the check takes another byte at {place} of the flash"))?;
    let count = stretch.results.iter().fold(0, |sum: u16, &byte| sum << 8 | u16::from(byte));
    for told in [count.wrapping_add(1), count.wrapping_sub(1), count ^ 0x100] {
        let noticed = stretch.fault(now, &told.to_be_bytes()).is_some_and(|text| text.starts_with("(b)"));
        demand(noticed == stretch.counted(), &format!("the check takes the count {told}, or claims one where it may not"))?;
    }
    Ok(())
}

fn one_list<T: Target>(seed: u64, k: u64, came: &mut Situations) -> Result<(), Failure> {
    let mut rng = Rng::new(seed.wrapping_mul(0x1_0000_0001).wrapping_add(k << 12));
    let (p, large) = some_profile(&mut rng, k);
    let state = some_state(&mut rng, &p);
    let flash = some_flash(&mut rng, &p);
    let image = some_image(&mut rng, &p, &flash, large);
    let target = T::new(&p, &state, &flash);
    let steps = if large { 25 + p.s as u64 / 225 } else { 10 + rng.below(50) };
    let mut list = List { target, finished: Finished::new(&p), sender: Sender { p, image, begun: false, large }, lines: Vec::new() };
    came.begin();
    let result = (0..steps).try_for_each(|_| list.step(&mut rng, came));
    result.map_err(|what| {
        let mut lines = vec![profile_text(&list.sender.p), state_text(&state), format!("flash {}", packed(&flash))];
        lines.extend(list.lines.iter().map(Sent::text));
        Failure { what, list: k, lines }
    })
}

/// Lists until there were so many calls; what came in them.
pub fn run<T: Target>(seed: u64, calls: u64) -> Result<Situations, Failure> {
    let mut came = Situations::default();
    let mut k = 0;
    while came.calls < calls {
        one_list::<T>(seed, k, &mut came)?;
        k += 1;
    }
    Ok(came)
}

/// On the second program's board; a report line.
pub fn compare(seed: u64, calls: u64) -> Result<String, String> {
    let came = run::<SecondBoard>(seed, calls).map_err(|f| {
        let last = f.lines.last().cloned().unwrap_or_default();
        format!("{}; finished uploads, list {}, its call {}: {last}", f.what, f.list, f.lines.len() - 3)
    })?;
    came.report(calls)
}

#[cfg(test)]
mod tests {
    #[test]
    fn finished_uploads_are_laid_at_o() {
        println!("{}", super::compare(2, 40_000).unwrap());
    }
}
